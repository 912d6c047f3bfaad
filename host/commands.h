/* The commands, each on the words and options that were taken for it. */
#ifndef COMMANDS_H
#define COMMANDS_H

#include "options.h"

enum status command_new(const struct request *request);
enum status command_call(const struct request *request);
enum status command_play(const struct request *request);
enum status command_show(const struct request *request);
enum status command_log(const struct request *request);
enum status command_verify(const struct request *request);
enum status command_statement(const struct request *request);
enum status command_due(const struct request *request);
enum status command_import(const struct request *request);
enum status command_export(const struct request *request);

#endif
