"""A desk with books of its own: host_desk.py PROGRAM ZONE SEED CALLS [--short] [--table]

Plays random calls through the program on a fresh zone, one by one or in tables, and compares each answer, with the
words of each refusal, what due says from time to time, and then what show and statement say, with books that are kept
here apart. In copies of the zone accounts pay in what due asks of them, or a fen less, and the morning close is made.
With --short many accounts are short of money. The last line is 'N passed, M failed'.
"""
import copy
import json
import random
import shutil
import subprocess
import sys

IDLE, LISTED, BID_STANDS, STRUCK, LODGED, SETTLED, FIRST_PAID, PENALTY_DUE = range(8)
STATES = ["idle", "listed", "bid stands", "struck", "lodged", "settled", "first paid", "penalty due"]
DEPOSIT = PENALTY = 5000000
TABLE = 32  # calls of a table
PARTIES = ["account", "receipt"]
FIELDS = {
    "pay-in": ["account", "fen"], "take-out": ["account", "fen"], "register": PARTIES + ["kilograms", "premium_yuan"],
    "list": PARTIES + ["contract", "days", "basis_yuan"], "withdraw-listing": PARTIES,
    "limit-bid": PARTIES + ["yuan"], "market-bid": PARTIES, "withdraw-bid": PARTIES, "quote": ["contract", "yuan"],
    "lodge": PARTIES, "morning-close": [], "first-payment": PARTIES, "invoice": PARTIES + ["fen"],
    "confirm": PARTIES, "day-close": [],
}
OFTEN = [10, 4, 8, 30, 1, 30, 6, 2, 6, 25, 3, 15, 25, 25, 3]
OFTEN_SHORT = [14, 4, 8, 30, 1, 20, 30, 2, 8, 12, 3, 8, 4, 4, 3]  # more trades that come due, with less money
RANGES = {"account": (1, 96), "receipt": (1, 128), "contract": (1, 8), "days": (0, 3), "fen": (1, 10 ** 12),
          "yuan": (5, 200000), "basis_yuan": (-50000, 50000), "kilograms": (1000, 60000),
          "premium_yuan": (-5000, 5000)}
NEEDS = {"list": [IDLE], "withdraw-listing": [LISTED, BID_STANDS], "limit-bid": [LISTED, BID_STANDS],
         "market-bid": [LISTED, BID_STANDS], "withdraw-bid": [BID_STANDS], "lodge": [STRUCK],
         "first-payment": [SETTLED], "invoice": [FIRST_PAID], "confirm": [FIRST_PAID]}
PARTY = {"list": "owner", "withdraw-listing": "seller", "withdraw-bid": "buyer", "lodge": "seller",
         "first-payment": "seller", "invoice": "seller", "confirm": "buyer"}
BIDS = ["limit-bid", "market-bid"]
# What a run must come to with a premium above 0 and with one below 0.
REACH = ["settled", "sold again by its buyer", "paid in full", "penalty", "number 10 turned by it"]
# Parts of the rest that a run must pay.
PARTS = {"0 fen", "more than its invoice would pay alone", "the last of several", "all in one"}
# What figures a run must come to, and what must be seen of them.
FIGURES = {"none in a morning with lots due", "an afternoon with lots due", "of one account", "of several accounts",
           "of a penalty", "of one trade", "of several trades", "of a penalty and a trade", "of a trade below the deposit",
           "paid in", "a fen less"}


def word_of(name):
    """The word of a field that JSON has under this name."""
    return "premium" if name == "premium_yuan" else name.replace("_", "-")


def grouped(number):
    return "{:,}".format(number)


class Lot:
    """A receipt and its sale; None where a field is not filled."""

    def __init__(self, owner, kilograms, premium):
        self.owner, self.kilograms, self.premium = owner, kilograms, premium
        self.registrant = owner
        self.end()

    def end(self):
        self.state = IDLE
        self.seller = self.buyer = self.contract = self.days = self.basis = self.price = self.due = None
        self.pending = self.confirmed = self.paid = None

    def full(self):
        return ((self.price + self.basis + self.premium) * self.kilograms + 5) // 10

    def rest(self):
        return self.full() - self.full() * 80 // 100

    def left(self):
        return self.full() - self.confirmed - self.pending

    def paid_at(self, confirmed):
        """What a confirmed sum has been paid of the rest (02 3/12)."""
        return self.rest() * confirmed // self.full()

    def next_part(self):
        return self.paid_at(self.confirmed + self.pending) - self.paid if self.pending else None

    def held(self):
        if self.state in (BID_STANDS, STRUCK, LODGED):
            return DEPOSIT
        if self.state == SETTLED:
            return self.full()
        return self.rest() - self.paid if self.state == FIRST_PAID else 0


class Books:
    """What a zone has. A call is tested by refusal() and then made by the method with its kind's name."""

    def __init__(self):
        self.free, self.asks, self.lots = [0] * 97, [0] * 9, {}
        self.day, self.afternoon = 1, False
        self.movements = {}  # of an account: (what, lot, other account, in, out, premium where a full payment counts it)
        self.reached = set()  # (what, whether the premium is above 0)
        self.parts = set()  # kinds of parts of a rest that were paid
        self.figures_seen = set()  # kinds of figures that were asked for, and what came of them

    def frozen(self, account):
        return sum(lot.held() for lot in self.lots.values() if lot.buyer == account)

    def total(self):
        return sum(self.free) + sum(lot.held() for lot in self.lots.values())

    def reach(self, what, lot):
        if lot.premium != 0:
            self.reached.add((what, lot.premium > 0))

    # ── Refusals: each test gives the words, or None ──

    def out_of_range(self, kind, f, _):
        said = []
        for name in FIELDS[kind]:
            (least, most), word = RANGES[name], word_of(name)
            if not least <= f[name] <= most and not (kind == "quote" and f["yuan"] == 0 and name == "yuan"):
                said.append("%s %s is not in %s to %s" % (word, grouped(f[name]), grouped(least), grouped(most)))
            elif name == "yuan" and f[name] % 5 != 0:
                said.append("yuan %d is no multiple of 5" % f[name])
        return "; ".join(said)

    def wrong_phase(self, kind, _, __):
        if kind == "morning-close" and self.afternoon:
            return "it is the afternoon of day %d, its morning close is made; day-close comes next" % self.day
        if kind == "day-close" and not self.afternoon:
            return "it is the morning of day %d; morning-close comes first" % self.day
        return None

    def wrong_state(self, kind, f, lot):
        if kind == "register" and lot:
            return "receipt %d is registered already, its owner is %d" % (f["receipt"], lot.owner)
        if kind in NEEDS and not lot:
            return "receipt %d is not registered" % f["receipt"]
        if kind in NEEDS and lot.state not in NEEDS[kind]:
            return "lot %d is in state '%s', %s needs %s" % (
                f["receipt"], STATES[lot.state], kind, " or ".join("'%s'" % STATES[s] for s in NEEDS[kind]))
        if kind == "invoice" and lot.pending:
            return "an invoice of %s fen waits for its confirmation, which pays %s fen; %s fen are left to invoice" % (
                grouped(lot.pending), grouped(lot.next_part()), grouped(lot.left()))
        if kind == "confirm" and not lot.pending:
            return "no invoice waits for a confirmation; %s fen are left to invoice" % grouped(lot.left())
        return None

    def wrong_party(self, kind, f, lot):
        if kind in BIDS and lot.seller == f["account"]:
            return "account %d is the seller of lot %d" % (f["account"], f["receipt"])
        if kind in PARTY and getattr(lot, PARTY[kind]) != f["account"]:
            return "account %d is not the %s of lot %d, who is %d" % (
                f["account"], PARTY[kind], f["receipt"], getattr(lot, PARTY[kind]))
        return None

    def not_above(self, kind, f, lot):
        if kind == "limit-bid" and lot.state == BID_STANDS and f["yuan"] <= lot.price:
            return "the bid is %s, the standing bid %s yuan per tonne" % (grouped(f["yuan"]), grouped(lot.price))
        return None

    def no_ask(self, kind, _, lot):
        if kind == "market-bid" and self.asks[lot.contract] == 0:
            return "contract %d has no ask today; a quote sets one" % lot.contract
        return None

    def nothing_to_pay(self, kind, f, lot):
        if kind not in BIDS:
            return None
        word, price = ("price", f["yuan"]) if kind == "limit-bid" else ("ask", self.asks[lot.contract])
        yuan = price + lot.basis + lot.premium
        if (yuan >= 1) != (price + lot.basis >= 1):
            self.reach("number 10 turned by it", lot)
        if yuan >= 1:
            return None
        return "%s %s, basis %s and premium %s make %s yuan per tonne, at least 1 is needed" % (
            word, grouped(price), grouped(lot.basis), grouped(lot.premium), grouped(yuan))

    def no_money(self, kind, f, lot):
        if kind not in BIDS + ["take-out"]:
            return None
        freed = DEPOSIT if kind in BIDS and lot.buyer == f["account"] else 0
        needed = f["fen"] if kind == "take-out" else DEPOSIT
        return None if self.free[f["account"]] + freed >= needed else "account %d has %s fen free, %s needs %s fen" % (
            f["account"], grouped(self.free[f["account"]]), kind, grouped(needed))

    def over_limit(self, kind, f, _):
        return "the zone is full" if kind == "pay-in" and self.total() + f["fen"] > 10 ** 15 else None

    def over_invoice(self, kind, f, lot):
        if kind != "invoice" or f["fen"] <= lot.full() - lot.confirmed:
            return None
        return "the invoice is %s fen, %s fen are left to invoice" % (
            grouped(f["fen"]), grouped(lot.full() - lot.confirmed))

    def refusal(self, kind, f):
        lot = self.lots.get(f.get("receipt"))
        tests = [self.out_of_range, self.wrong_phase, self.wrong_state, self.wrong_party, self.not_above, self.no_ask,
                 self.nothing_to_pay, self.no_money, self.over_limit, self.over_invoice]
        for number, test in enumerate(tests, 4):
            said = test(kind, f, lot)
            if said:
                return number, said
        return 0, None

    # ── Calls: each gives its entries, (lot, outcome, from, to, number) ──

    def move(self, account, what, lot=None, other=None, into=None, out=None):
        premium = self.lots[lot].premium if what in ("first paid", "part paid") else None
        self.movements.setdefault(account, []).append((what, lot, other, into, out, premium))

    def transfer(self, what, lot, payer, payee, fen):
        self.free[payee] += fen
        self.move(payer, what, lot, payee, out=fen)
        self.move(payee, what, lot, payer, into=fen)
        return (lot, what, payer, payee, fen)

    def pay_in(self, f):
        self.free[f["account"]] += f["fen"]
        self.move(f["account"], "pay-in", into=f["fen"])
        return []

    def take_out(self, f):
        self.free[f["account"]] -= f["fen"]
        self.move(f["account"], "take-out", out=f["fen"])
        return []

    def register(self, f):
        self.lots[f["receipt"]] = Lot(f["account"], f["kilograms"], f["premium_yuan"])
        return [(f["receipt"], "registered", f["account"], 0, 0)]

    def list(self, f):
        lot = self.lots[f["receipt"]]
        lot.state, lot.seller, lot.contract = LISTED, f["account"], f["contract"]
        lot.days, lot.basis = f["days"], f["basis_yuan"]
        return [(f["receipt"], "listed", f["account"], 0, 0)]

    def drop_bid(self, lot):
        if lot.state == BID_STANDS:
            self.free[lot.buyer] += DEPOSIT
            lot.state, lot.buyer, lot.price = LISTED, None, None

    def withdraw_listing(self, f):
        lot = self.lots[f["receipt"]]
        self.drop_bid(lot)
        lot.end()
        return [(f["receipt"], "listing ended", f["account"], 0, 0)]

    def strike(self, number, lot):
        lot.state, lot.due = STRUCK, self.day + (1 if self.afternoon and lot.days == 0 else lot.days)
        return (number, "struck", lot.buyer, lot.seller, lot.price)

    def bid(self, f, price):
        lot = self.lots[f["receipt"]]
        self.drop_bid(lot)
        self.free[f["account"]] -= DEPOSIT
        lot.state, lot.buyer, lot.price = BID_STANDS, f["account"], price
        return lot

    def limit_bid(self, f):
        lot = self.bid(f, f["yuan"])
        if 0 < self.asks[lot.contract] <= f["yuan"]:
            return [self.strike(f["receipt"], lot)]
        return [(f["receipt"], "bid stands", f["account"], lot.seller, f["yuan"])]

    def market_bid(self, f):
        lot = self.lots[f["receipt"]]
        return [self.strike(f["receipt"], self.bid(f, self.asks[lot.contract]))]

    def withdraw_bid(self, f):
        lot = self.lots[f["receipt"]]
        self.drop_bid(lot)
        return [(f["receipt"], "bid withdrawn", f["account"], lot.seller, 0)]

    def quote(self, f):
        self.asks[f["contract"]] = f["yuan"]
        met = [(n, lot) for n, lot in self.lots.items() if lot.state == BID_STANDS and
               lot.contract == f["contract"] and 0 < f["yuan"] <= lot.price]
        met.sort(key=lambda one: (-one[1].price, one[0]))  # highest price first, then by lot
        return [self.strike(n, lot) for n, lot in met]

    def lodge(self, f):
        lot = self.lots[f["receipt"]]
        lot.state = LODGED
        return [(f["receipt"], "lodged", lot.seller, lot.buyer, 0)]

    def close_lodged(self, number, lot, rich):
        if not rich:
            entry = self.transfer("buyer default", number, lot.buyer, lot.seller, DEPOSIT)
            lot.end()
            return entry
        self.free[lot.buyer] -= lot.full() - DEPOSIT
        self.reach("settled" if lot.owner == lot.registrant else "sold again by its buyer", lot)
        lot.owner, lot.state = lot.buyer, SETTLED
        return (number, "settled", lot.buyer, lot.seller, lot.full())

    def close_struck(self, number, lot, rich):
        seller, buyer = lot.seller, lot.buyer
        self.free[buyer] += DEPOSIT
        lot.end()
        if not rich:
            return (number, "both defaulted", buyer, seller, 0)
        lot.state, lot.seller, lot.buyer, lot.due = PENALTY_DUE, seller, buyer, self.day + 1
        return (number, "seller default", seller, buyer, 0)

    def close_lot(self, number, lot):
        if lot.state == PENALTY_DUE:
            fen = min(self.free[lot.seller], PENALTY)
            self.free[lot.seller] -= fen
            entry = self.transfer("penalty", number, lot.seller, lot.buyer, fen)
            self.reach("penalty", lot)
            lot.end()
            return entry
        rich = self.free[lot.buyer] + DEPOSIT >= lot.full()
        return (self.close_lodged if lot.state == LODGED else self.close_struck)(number, lot, rich)

    def due_lots(self, day):
        return [n for n in sorted(self.lots) if self.lots[n].state in (STRUCK, LODGED, PENALTY_DUE) and
                self.lots[n].due <= day]

    def asked_lots(self, account):
        """Today's penalties that the account owes, and today's trades that it buys (02 6/12)."""
        due = [self.lots[n] for n in self.due_lots(self.day)]
        return ([lot for lot in due if lot.state == PENALTY_DUE and lot.seller == account],
                [lot for lot in due if lot.state in (STRUCK, LODGED) and lot.buyer == account])

    def figure(self, account):
        """What the account has to pay in before the morning close (02 6/12)."""
        penalties, trades = self.asked_lots(account)
        asked = PENALTY * len(penalties) + sum(max(0, lot.full() - DEPOSIT) for lot in trades)
        return 0 if self.afternoon else max(0, asked - self.free[account])

    def figures(self):
        return {a: self.figure(a) for a in range(1, 97) if self.figure(a) > 0}

    def note_figure(self, account):
        penalties, trades = self.asked_lots(account)
        if penalties and trades:
            self.figures_seen.add("of a penalty and a trade")
        elif penalties:
            self.figures_seen.add("of a penalty")
        else:
            self.figures_seen.add("of one trade" if len(trades) == 1 else "of several trades")
        if any(lot.full() < DEPOSIT for lot in trades):
            self.figures_seen.add("of a trade below the deposit")

    def note_figures(self):
        figures, lots = self.figures(), self.due_lots(self.day + self.afternoon)
        for account in figures:
            self.note_figure(account)
        if figures:
            self.figures_seen.add("of one account" if len(figures) == 1 else "of several accounts")
        elif lots:
            self.figures_seen.add("an afternoon with lots due" if self.afternoon else "none in a morning with lots due")

    def morning_close(self, _):
        entries = [self.close_lot(n, self.lots[n]) for n in self.due_lots(self.day)]
        self.afternoon = True
        return entries

    def first_payment(self, f):
        lot = self.lots[f["receipt"]]
        lot.state, lot.pending, lot.confirmed, lot.paid = FIRST_PAID, 0, 0, 0
        return [self.transfer("first paid", f["receipt"], lot.buyer, lot.seller, lot.full() - lot.rest())]

    def invoice(self, f):
        lot = self.lots[f["receipt"]]
        lot.pending = f["fen"]
        return [(f["receipt"], "invoiced", lot.seller, lot.buyer, f["fen"])]

    def note_part(self, lot, fen, last):
        if fen == 0:
            self.parts.add("0 fen")
        if fen > lot.paid_at(lot.pending):
            self.parts.add("more than its invoice would pay alone")
        if last:
            self.parts.add("the last of several" if lot.confirmed > 0 else "all in one")

    def confirm(self, f):
        lot = self.lots[f["receipt"]]
        confirmed = lot.confirmed + lot.pending
        fen, last = lot.paid_at(confirmed) - lot.paid, confirmed == lot.full()
        self.note_part(lot, fen, last)
        lot.confirmed, lot.pending, lot.paid = confirmed, 0, lot.paid + fen
        entry = self.transfer("part paid", f["receipt"], lot.buyer, lot.seller, fen)
        if last:
            self.reach("paid in full", lot)
            lot.end()
        return [entry]

    def day_close(self, _):
        entries = []
        for number in sorted(n for n, lot in self.lots.items() if lot.state in (LISTED, BID_STANDS)):
            entries.append((number, "listing ended", self.lots[number].seller, 0, 0))
            self.withdraw_listing({"receipt": number, "account": self.lots[number].seller})
        self.asks, self.day, self.afternoon = [0] * 9, self.day + 1, False
        return entries

    def call(self, kind, f):
        number, said = self.refusal(kind, f)
        entries = [] if number else getattr(self, kind.replace("-", "_"))(f)
        lot = self.lots[f["receipt"]] if kind == "invoice" and number == 0 else None
        return number, said, entries, (lot.next_part(), lot.left()) if lot else (None, None)


# ── Random calls, most of them sensible ──

def some_lot(chance, books, kind):
    wanted = [n for n, lot in books.lots.items() if lot.state in NEEDS.get(kind, [])]
    if kind == "register":
        wanted = [n for n in list(range(1, 40)) + [127, 128] if n not in books.lots]
    return chance.choice(wanted) if wanted and chance.random() < 0.9 else chance.choice([0, 1, 5, 128, 129, 255])


def some_account(chance, kind, lot):
    if lot and kind in PARTY and chance.random() < 0.9 and getattr(lot, PARTY[kind]):
        return getattr(lot, PARTY[kind])
    return chance.choice(list(range(1, 13)) + [96]) if chance.random() < 0.97 else chance.choice([0, 97, 255])


def some_fen(chance, kind, lot, short):
    if short and kind in ("pay-in", "take-out"):
        return chance.choice([1, 10 ** 6, DEPOSIT, DEPOSIT, 70000000])
    if kind == "invoice" and lot and lot.state == FIRST_PAID:
        left = lot.full() - lot.confirmed
        return chance.choice([left, left, max(1, left // 2), max(1, left // 3), left + 1, 1])
    return chance.choice([0, 1, 10 ** 6, DEPOSIT, 70000000, 10 ** 9, 10 ** 12, 10 ** 12 + 1])


def some_call(chance, books, short):
    kind = chance.choices(list(FIELDS), OFTEN_SHORT if short else OFTEN)[0]
    receipt = some_lot(chance, books, kind)
    lot = books.lots.get(receipt)
    fields = {
        "account": some_account(chance, kind, lot), "receipt": receipt, "fen": some_fen(chance, kind, lot, short),
        "contract": chance.choice([1, 1, 1, 1, 2, 2, 8, 9]), "days": chance.choice([0, 0, 0, 1, 2, 3, 4]),
        "yuan": chance.choice([0, 3, 5, 14990, 14995, 15000, 15005, 15010, 200000, 200005]),
        "basis_yuan": chance.choice([-50000, -14999, -4, 0, 0, 300, 300, 50000, 50001]),
        "kilograms": chance.choice([999, 1000, 1001, 41237, 41237, 60000, 60001]),
        "premium_yuan": chance.choice([-5001, -5000, -120, -4, -1, 0, 0, 1, 4, 120, 5000, 5000, 5001]),
    }
    return kind, {name: fields[name] for name in FIELDS[kind]}


# ── What the program says ──

class Check:
    def __init__(self):
        self.passed = self.failed = 0

    def same(self, what, got, wanted):
        self.passed += got == wanted
        self.failed += got != wanted
        if got != wanted and self.failed < 10:
            print("failed: %s: %s, not %s" % (what, got, wanted))


def objects(program, *words, script=None):
    ran = subprocess.run([program, *words, "--json"], input=script, stdout=subprocess.PIPE, check=False)
    return [json.loads(line) for line in ran.stdout.decode().splitlines()]


def in_words(chance, kind, f):
    digits = chance.choice(["{}", "{:,}"])
    left_out = [name for name in f if name == "premium_yuan" and f[name] == 0 and chance.random() < 0.5]
    named = [name for name in f if name not in left_out]
    return kind + "".join(" %s %s" % (word_of(name), digits.format(f[name])) for name in named) + "\n"


def entry_fields(entry):
    return (entry["lot"], entry["outcome"], entry["from"], entry["to"] or 0, entry["fen"] or entry["yuan"] or 0)


def make_script(books, chance, calls, short):
    """The calls in words, and what is wanted of each: (call, number, words, entries, next part and left to invoice)."""
    script, wanted = "", []
    for _ in range(calls):
        kind, f = some_call(chance, books, short)
        script += in_words(chance, kind, f)
        wanted.append((dict(f, kind=kind), *books.call(kind, f)))
    return script, wanted


def table_of(place, calls, options):
    """The table of a call, places from 0: a script is cut into tables from its first call on."""
    first = place - place % TABLE
    return {"first": first + 1, "last": min(first + TABLE, calls)} if "--table" in options else None


def compare_tables(check, said, played, options):
    """Which calls were made together."""
    tables = [table_of(place, len(said), options) for place in range(len(said))]
    through = "crz_table" if "--table" in options else "crz_call"
    check.same("tables", [o["table"] for o in said], tables)
    check.same("entries that calls went through", {o["through"] for o in said}, {through})
    check.same("times of a table", len({o["time"] for o in said[:TABLE]}) == 1 or "--table" not in options, True)
    check.same("tables counted", sum(o["tables"] for o in played), len({t["first"] for t in tables if t}))


def play(check, program, zone, books, seed, calls, short, options):
    """Plays the calls in parts of whole tables and asks after each part what is due: what was said, and wanted."""
    chance, said, wanted = random.Random(seed), [], []
    part = TABLE if short else 5 * TABLE
    for place in range(0, calls, part):
        script, more = make_script(books, chance, min(part, calls - place), short)
        said += objects(program, "play", zone, "-", *options, script=script.encode())
        wanted += more
        compare_due(check, program, zone, books)
        compare_pay_ins(check, program, zone, books)
        books.note_figures()
    return said, wanted


def compare_answers(check, answers, wanted, options):
    said, played = [[o for o in answers if o["type"] == kind] for kind in ("call", "played")]
    check.same("calls played", len(said), len(wanted))
    compare_tables(check, said, played, options)
    for got, (call, number, seen, entries, invoiced) in zip(said, wanted):
        check.same("answer to %s" % call, (got["call"], got["number"], got["seen"]), (call, number, seen))
        check.same("entries of %s" % call, list(map(entry_fields, got["entries"])), entries)
        check.same("what follows %s" % call, (got["next_part_fen"], got["left_to_invoice_fen"]), invoiced)
    compare_parts(check, said)


def compare_parts(check, said):
    """What the program says of an invoice is what its confirmation pays."""
    told = {}
    for entry, next_part in [(e, o["next_part_fen"]) for o in said if o["type"] == "call" for e in o["entries"]]:
        if entry["outcome"] == "invoiced":
            told[entry["lot"]] = next_part
        if entry["outcome"] == "part paid":
            check.same("part paid of lot %d" % entry["lot"], entry["fen"], told.pop(entry["lot"]))


def lot_object(number, lot):
    traded, invoiced = lot.price is not None, lot.state == FIRST_PAID
    return {
        "type": "lot", "lot": number, "state": STATES[lot.state], "owner": lot.owner, "kilograms": lot.kilograms,
        "premium_yuan": lot.premium, "seller": lot.seller, "buyer": lot.buyer, "contract": lot.contract, "days": lot.days, "basis_yuan": lot.basis,
        "price_yuan": lot.price, "due": lot.due, "full_fen": lot.full() if traded else None,
        "rest_fen": lot.rest() if traded else None, "held_fen": lot.held(), "paid_of_rest_fen": lot.paid,
        "confirmed_fen": lot.confirmed, "pending_fen": lot.pending,
        "left_to_invoice_fen": lot.left() if invoiced else None,
        "next_part_fen": lot.next_part() if invoiced else None,
    }


def compare_show(check, program, zone, books):
    said = objects(program, "show", zone)
    check.same("the zone", said[0], {"type": "zone", "day": books.day, "total_fen": books.total(),
                                     "phase": "afternoon" if books.afternoon else "morning"})
    check.same("asks", [o["ask_yuan"] or 0 for o in said if o["type"] == "contract"], books.asks[1:])
    money = {a: (books.free[a], books.frozen(a)) for a in range(1, 97)}
    check.same("accounts", {o["account"]: (o["free_fen"], o["frozen_fen"]) for o in said if o["type"] == "account"},
               {a: has for a, has in money.items() if has != (0, 0)})
    check.same("lots", [o for o in said if o["type"] == "lot"],
               [lot_object(n, books.lots[n]) for n in sorted(books.lots)])


def due_object(books, number):
    lot = books.lots[number]
    penalty, seller, buyer = lot.state == PENALTY_DUE, books.free[lot.seller], books.free[lot.buyer]
    lacks = PENALTY - seller if penalty else lot.full() - DEPOSIT - buyer
    return {
        "type": "due", "lot": number, "state": STATES[lot.state], "due": lot.due, "seller": lot.seller,
        "buyer": lot.buyer, "full_fen": None if penalty else lot.full(), "must_lodge": lot.state == STRUCK,
        "penalty_fen": PENALTY if penalty else None, "seller_free_fen": seller, "buyer_free_fen": buyer,
        "deposit_fen": 0 if penalty else DEPOSIT, "lacks_fen": max(0, lacks),
    }


def due_words(due):
    """The lines of a lot, by its object."""
    lacks = ", lacks %s fen for this lot alone" % grouped(due["lacks_fen"]) if due["lacks_fen"] else ""
    lines = ["  lot %d, due day %s: %s" % (due["lot"], grouped(due["due"]), due["state"]),
             "      seller %d has %s fen free" % (due["seller"], grouped(due["seller_free_fen"]))]
    if due["penalty_fen"]:
        lines[0] += ", seller %d owes 5,000,000 fen to buyer %d" % (due["seller"], due["buyer"])
        return [lines[0], lines[1] + lacks]
    lines[0] += ", full payment %s fen, seller %d %s" % (
        grouped(due["full_fen"]), due["seller"], "must lodge" if due["must_lodge"] else "has lodged")
    return lines + ["      buyer %d has %s fen free and the deposit of 5,000,000 fen%s" % (
        due["buyer"], grouped(due["buyer_free_fen"]), lacks)]


def figure_words(books, account, fen):
    free = books.free[account]
    return ["  account %d has to pay in %s fen before the morning close" % (account, grouped(fen)),
            "      its due lots together ask for %s fen beyond deposits, it has %s fen free" % (
                grouped(fen + free), grouped(free))]


def close_words(books, day, lots):
    return "the next morning close, of day %s (%s), works %d lot%s" % (
        grouped(day), "tomorrow: today's is made" if books.afternoon else "today", lots, "" if lots == 1 else "s")


def compare_due(check, program, zone, books):
    """Objects and words: the close, the lots that it works, and what each account has to pay in."""
    day = books.day + 1 if books.afternoon else books.day
    lots, figures = [due_object(books, n) for n in books.due_lots(day)], books.figures()
    close = {"type": "close", "day": day, "today": not books.afternoon, "lots": len(lots)}
    check.same("what is due", objects(program, "due", zone), [close] + lots + [
        {"type": "shortfall", "account": account, "fen": fen} for account, fen in figures.items()])
    nobody = ["today's close is made, nothing is to be paid in for it; what to pay in for tomorrow's is shown after the day "
              "close" if books.afternoon else "nobody has to pay in before the morning close"]
    asked = [line for account, fen in figures.items() for line in figure_words(books, account, fen)]
    said = subprocess.run([program, "due", zone], stdout=subprocess.PIPE, check=False).stdout.decode()
    check.same("what is due, in words", said.splitlines(), [close_words(books, day, len(lots))] + [
        line for due in lots for line in due_words(due)] + (asked or nobody))


# ── What figures are for ──

def close_after(check, program, zone, books, pay_ins):
    """In a copy of the zone these accounts pay in, and the morning close is made: the buyers in its defaults."""
    copied, books = zone + ".copy", copy.deepcopy(books)
    shutil.copy(zone, copied)
    script = "".join("pay-in account %d fen %d\n" % pay_in for pay_in in pay_ins.items()) + "morning-close\n"
    close = objects(program, "play", copied, "-", "--table", script=script.encode())[-2]
    for account, fen in pay_ins.items():
        books.call("pay-in", {"account": account, "fen": fen})
    entries = list(map(entry_fields, close["entries"]))
    check.same("the close after %s" % pay_ins, entries, books.call("morning-close", {})[2])
    return {buyer for _, outcome, buyer, _, _ in entries if outcome in ("buyer default", "both defaulted")}


def one_trade(books, account):
    """Whether the account has a part in a single due lot, and buys it."""
    due = [books.lots[n] for n in books.due_lots(books.day)]
    return [lot for lot in due if account in (lot.seller, lot.buyer)] == books.asked_lots(account)[1][:1]


def compare_pay_ins(check, program, zone, books):
    """Who pays its figure in is in no default, with the others or alone; a fen less is one (02 6/12)."""
    figures = books.figures()
    if figures:
        check.same("defaults after all pay-ins", close_after(check, program, zone, books, figures), set())
    for account, fen in figures.items():
        short = close_after(check, program, zone, books, {account: fen})
        check.same("account %d pays in alone" % account, account in short, False)
        books.figures_seen.add("paid in")
        if one_trade(books, account):
            short = close_after(check, program, zone, books, {account: fen - 1} if fen > 1 else {})
            check.same("account %d pays in a fen less" % account, account in short, True)
            books.figures_seen.add("a fen less")


def sums(movements):
    """pay-ins, take-outs, received, passed"""
    own = [m for m in movements if m[0] in ("pay-in", "take-out")]
    other = [m for m in movements if m not in own]
    return [sum(m[column] or 0 for m in some) for some, column in ((own, 3), (own, 4), (other, 3), (other, 4))]


def held_object(number, lot):
    return {
        "type": "held", "lot": number, "state": STATES[lot.state], "premium_yuan": lot.premium, "fen": lot.held(),
        "left_to_invoice_fen": lot.left() if lot.state == FIRST_PAID else None, "next_part_fen": lot.next_part(),
    }


def to_invoice_object(number, lot):
    return {
        "type": "to_invoice", "lot": number, "buyer": lot.buyer, "premium_yuan": lot.premium,
        "left_to_invoice_fen": lot.left(), "pending_fen": lot.pending, "next_part_fen": lot.next_part(),
    }


def compare_statement(check, program, zone, books, account):
    said = objects(program, "statement", zone, str(account))
    movements = books.movements.get(account, [])
    check.same("movements of account %d" % account, movements, [
        (o["what"], o["lot"], o["other_account"], o["in_fen"], o["out_fen"], o["premium_yuan"]) for o in said
        if o["type"] == "movement"])
    lots = sorted(books.lots.items())
    check.same("held for account %d" % account, [o for o in said if o["type"] == "held"], [
        held_object(n, lot) for n, lot in lots if lot.buyer == account and lot.held() > 0])
    check.same("what account %d may invoice" % account, [o for o in said if o["type"] == "to_invoice"], [
        to_invoice_object(n, lot) for n, lot in lots if lot.seller == account and lot.state == FIRST_PAID])
    line = said[-1]
    check.same("sums of account %d" % account, sums(movements), [
        line["pay_ins_fen"], line["take_outs_fen"], line["received_fen"], line["passed_fen"]])
    adds_up = line["pay_ins_fen"] + line["received_fen"] - line["take_outs_fen"] - line["passed_fen"]
    check.same("the line of account %d" % account, adds_up, books.free[account] + books.frozen(account))


def compare_reached(check, books, short):
    """What a run must come to, so that it is no easy one."""
    if short:
        check.same("figures", FIGURES - books.figures_seen, set())
        return
    wanted = {(what, above) for what in REACH for above in (False, True)}
    check.same("what premiums of both signs came to", wanted - books.reached, set())
    check.same("parts of a rest", PARTS - books.parts, set())


def main():
    program, zone, seed, calls, *options = sys.argv[1:]
    short, options = "--short" in options, [o for o in options if o != "--short"]
    check, books = Check(), Books()
    compare_answers(check, *play(check, program, zone, books, int(seed), int(calls), short, options), options)
    compare_show(check, program, zone, books)
    for account in range(1, 97):
        compare_statement(check, program, zone, books, account)
    compare_reached(check, books, short)
    print("seed %s: day %d, %s, %d lots due" % (seed, books.day, "afternoon" if books.afternoon else "morning",
                                               len(books.due_lots(books.day + books.afternoon))))
    print("%d passed, %d failed" % (check.passed, check.failed))
    return 1 if check.failed else 0


if __name__ == "__main__":
    sys.exit(main())
