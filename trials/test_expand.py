"""The word `expand`: worked examples whose answers are written by hand, a model in Python over drawn texts, and bad input."""

import random
import re
import resource

from program import IN_MEMORY, SEED, TOP, Trial, run

MOST = 16_777_216
SENTENCES = {
    "text": "a text begins with { or <: rules stand in braces, then a configuration as <r | Add(r,1) ~ 2>, and a comment begins with #; lines for serve aren't expanded",
    "word": "copy and erase need a symbol: A to Z or 0 to 9, and then letters and digits",
    "copier": "copy needs a symbol with two arguments, and this one has COUNT where it stands first",
    "eraser": "erase needs a symbol without arguments, and this one has COUNT where it stands first",
    "again": "an earlier copy or erase has this symbol",
    "rules": "no rule is left for which this stands: each is given, or an earlier copy or erase stands for it",
    "end": "; or } is looked for here",
}

# A text, and what it is written as, both by hand.
WORKED = {
    "nothing": ("", ""),
    "a plain text": ("{Add(x,x)><Z; Add(S(x),y)><S(Add(x,y))} <r|Add(r,S(Z))=S(Z)>\n",) * 2,
    "a configuration": (" < a1 , z | a1 = S(z) >\r\n",) * 2,
    "no calculus at all": ("< A() ;; x01- >< {(",) * 2,
    "a comment alone": ("# nothing", ""),
    "comments": ("<a # one\n,a # two ## three\n|>#", "<a \n,a \n|>"),
    "comments past ASCII": ("<a,a|># \u00fc\u2200\x00\x7f\n#\n", "<a,a|>\n\n"),
    "carriage returns": ("<a,# one\r\na|>\r\n", "<a,\na|>\r\n"),
    "a long name": ("<result|result=Z>", "<a|a=Z>"),
    "long names by first occurrence": ("<one,two|two=A(three),one=three>", "<a,b|b=A(c),a=c>"),
    "names that are kept": ("<x,x_1|x=A(b),x_1=B(a)>", "<x,c|x=A(b),c=B(a)>"),
    "names with zeros": ("<x01,x1,x0|>", "<a,x1,b|>"),
    "names in rules and below": ("{A(in,in)><B} <in,x|A(in,out)=x,out=B>", "{A(a,a)><B} <a,x|A(a,b)=x,b=B>"),
    "a name above all names of texts": ("<v165191050,long|>", "<v165191050,a|>"),
    "more than 26": ("<" + ",".join(f"n_{i}" for i in range(28)) + "|>", "<" + ",".join([*map(chr, range(97, 123)), "a1", "b1"]) + "|>"),
    "the next free ones": ("<aa,bb,cc|a=a1,c=c>", "<b,d,e|a=a1,c=c>"),
    "copy and erase as names": ("<copy,erase|copy=A(erase)>", "<a,b|a=A(b)>"),
    "words that are none": ("<A-B,a-b,A_1,_x|>",) * 2,
    "a copier": ("{copy D} <a,b|D(a,b)=S(Z)>", "{ D(a,b)><D(a,b);D(S(a),S(a1))><S(D(a,a1));D(Z,Z)><Z} <a,b|D(a,b)=S(Z)>"),
    "an eraser": ("{erase E} <|E=P(Z,Z)>", "{ E><E;E><P(E,E);E><Z} <|E=P(Z,Z)>"),
    "a copier of two": ("{copy D} <a|D(a,P(a,b))=b>", "{ D(a,b)><D(a,b);D(P(a,b),P(a1,b1))><P(D(a,a1),D(b,b1))} <a|D(a,P(a,b))=b>"),
    "both": ("{copy D;erase E} <|D(E,E)=E>", "{ D(a,b)><D(a,b);D(E,E)><E; E><E} <|D(E,E)=E>"),
    "the other way round": ("{erase E;copy D} <|D(E,E)=E>", "{ E><D(E,E);E><E; D(a,b)><D(a,b)} <|D(E,E)=E>"),
    "two copiers": (
        "{copy D;copy F} <|D(x,y)=F(x,y)>",
        "{ D(a,b)><D(a,b);D(F(a,b),F(a1,b1))><F(D(a,a1),D(b,b1)); F(a,b)><F(a,b)} <|D(x,y)=F(x,y)>",
    ),
    "two erasers": ("{erase E;erase F} <|E=F>", "{ E><E;E><F; F><F} <|E=F>"),
    "rules that are given": (
        "{Z><E; D(x,y) > # on\n < S(D(x,y)); copy D; erase E} <|D(E,E)=Z>",
        "{Z><E; D(x,y) > \n < S(D(x,y));  D(Z,Z)><Z;D(E,E)><E;D(a,b)><D(a,b);  E><E;E><S(E)} <|D(E,E)=Z>",
    ),
    "blanks within": (
        "{\n copy # this\n D\n;\nA><B} <|D(a,a)=A>",
        "{\n  \n D(A,A)><A;D(B,B)><B;D(a,b)><D(a,b)\n;\nA><B} <|D(a,a)=A>",
    ),
    "a copier that stands in no term": ("{copy D} <|A=B>", "{ D(A,A)><A;D(B,B)><B;D(a,b)><D(a,b)} <|A=B>"),
    "an eraser that stands in no term": ("{ erase\nE} <|A(x)=x>", "{ \nE><A(E);E><E} <|A(x)=x>"),
    "two that stand in no term": ("{copy D;erase E} <|>", "{ D(a,b)><D(a,b);D(E,E)><E; E><E} <|>"),
    "a symbol in rules alone": ("{copy D;D(D(a,b),b)><T(a)} <|>", "{ D(a,b)><D(a,b);D(D(a,b),b)><T(a)} <|>"),
}

# A text, the place of its fault, and what is told of it.
REFUSED = {
    "a line": ("submit two {A><B} <|A=B>", (1, 1), "text"),
    "a line after a comment": ("# a session\n\tlist # all\nrun 3\n", (2, 2), "text"),
    "another byte": (" =<|>", (1, 2), "text"),
    "a copier of three": ("{copy D} <|D(a,b,c)=D(a,b,c)>", (1, 7), ("copier", 3)),
    "a copier of none": ("{copy D} <|D=D>", (1, 7), ("copier", 0)),
    "a copier of three in a rule": ("{A><D(a,b,c);copy D} <|D(a,b)=A>", (1, 19), ("copier", 3)),
    "an eraser of one": ("{erase E} <|E(a)=E(a)>", (1, 8), ("eraser", 1)),
    "a name": ("{copy d} <|D(a,b)=D(a,b)>", (1, 7), "word"),
    "a word with a line": ("{erase E_1} <|E=E>", (1, 8), "word"),
    "nothing": ("{copy ;A><B} <|D(a,b)=D(a,b)>", (1, 7), "word"),
    "twice": ("{copy D;\n  copy D} <|D(a,b)=Z>", (2, 8), "again"),
    "all given": ("{E><E;A><E;erase E} <|A=E>", (1, 18), "rules"),
    "all given after it": ("{E><A;erase E;E><E} <|E=A>", (1, 13), "rules"),
    "all given or stood for": ("{erase E;D(a,b)><D(a,b);copy D} <|D(a,b)=E>", (1, 30), "rules"),
    "arguments": ("{copy D(x,y)} <|D(a,b)=Z>", (1, 8), "end"),
    "a rule": ("{erase E >< E} <|E=Z>", (1, 10), "end"),
    "the end of rules": ("{erase E <|E=Z>", (1, 10), "end"),
    "another symbol": ("{erase E E} <|E=Z>", (1, 10), "end"),
    "the first of two": ("{copy a;copy b} <|>", (1, 7), "word"),
}


def told(place, what):
    line, column = place
    what, count = (what, "") if isinstance(what, str) else what
    return f"line {line}, column {column}\n", SENTENCES[what].replace("COUNT", str(count)) + "\n"


# ---- a model

WORD = re.compile(rb"[A-Za-z0-9_-]+|[^A-Za-z0-9_-]", re.S)


def is_symbol(word):
    return re.fullmatch(rb"[A-Z0-9][A-Za-z0-9]*", word) is not None


def is_short(word):
    return re.fullmatch(rb"[a-z]([1-9][0-9]*)?", word) is not None


def is_long(word):
    return re.fullmatch(rb"[a-z][A-Za-z0-9_]*", word) is not None and not is_short(word)


def name(number):
    return b"%c%s" % (97 + number % 26, b"%d" % (number // 26) if number >= 26 else b"")


def arguments(rest):
    """How many arguments stand in a text that follows a symbol."""
    rest = rest.lstrip(b" \t\r\n")
    if not rest.startswith(b"("):
        return 0
    count, depth = 1, 0
    for mark in re.findall(rb"[(),]", rest[1:]):
        if mark == b")" and depth == 0:
            break
        depth += {b"(": 1, b")": -1}.get(mark, 0)
        count += mark == b"," and depth == 0
    return count


def agent(symbol, args):
    return symbol + (b"(" + b",".join(args) + b")" if args else b"")


def rule(kind, generic, symbol, arity):
    one, two = ([name(first + k) for k in range(arity)] for first in (0, 26))
    if kind == b"erase":
        return generic + b"><" + agent(symbol, [generic] * arity)
    if generic == symbol:
        return agent(generic, [b"a", b"b"]) + b"><" + agent(generic, [b"a", b"b"])
    return agent(generic, [agent(symbol, one), agent(symbol, two)]) + b"><" + agent(symbol, [agent(generic, pair) for pair in zip(one, two)])


class Refused(Exception):
    pass


# What a text has, outside its comments, that `test_rich.py` tries and the model doesn't know.
FORM = re.compile(
    rb"=[ \t\r\n]*>|;[ \t\r\n]*\}|,[ \t\r\n]*>|[\[^~]|(?<![\w-])(number|list|pair|let)(?![\w-])"
    rb"|[{;][ \t\r\n]*(copy|erase)(?![\w-])[ \t\r\n]*([\w-]+|[^\w \t\r\n{;-])[ \t\r\n]*,"
)


def has_form(text):
    body = re.sub(rb"#[^\n]*", b"", text)
    return FORM.search(body) is not None or has_several(body)


def has_several(body):
    """Whether several configurations follow the rules of a text."""
    after = body.rpartition(b"}")[2]
    after = b"" if b"{" in after and b"}" not in body else after
    places = [it.start() for it in re.finditer(rb"(?<!<)<(?!<)", after)]
    return len(places) > 1 and all(b">" in after[one:other] for one, other in zip(places, places[1:]))


def model(text):
    """What a text is written as, or its first fault, by the pieces of the text and a first walk over them."""
    body = re.sub(rb"#[^\n]*", b"", text)
    begun = body.lstrip(b" \t\r\n")
    if begun and begun[:1] not in b"{<":
        raise Refused(len(body) - len(begun), "text")
    pieces = WORD.findall(body)
    spots, at, spot = [], 0, "else"
    for piece in pieces:
        spots.append((spot, piece, at))
        at += len(piece)
        if piece in b" \t\r\n":
            continue
        if piece in (b"{", b";"):
            spot = "first"
        elif spot == "first" and piece in (b"copy", b"erase"):
            spot = piece
        else:
            spot = "given" if spot in (b"copy", b"erase") else "else"
    names = [it for spot, it, _ in spots if spot != "first"]
    taken = {it for it in names if is_short(it)}
    long = list(dict.fromkeys(it for it in names if is_long(it)))
    spare = (it for it in map(name, range(len(names) + 1)) if it not in taken)
    renamed = dict(zip(long, spare))
    symbols = {}
    for spot, piece, at in spots:
        if is_symbol(piece) and spot not in (b"copy", b"erase") and piece not in symbols and len(symbols) < 64:
            symbols[piece] = arguments(body[at + len(piece) :])
    for spot, piece, at in spots:
        if is_symbol(piece) and spot in (b"copy", b"erase") and piece not in symbols and len(symbols) < 64:
            symbols[piece] = {b"copy": 2, b"erase": 0}[spot]
    given = set()
    heads = [(piece, at) for spot, piece, at in spots if spot == "first" and is_symbol(piece)][:256]
    for head, at in heads:
        rest = body[at:].partition(b">")[2].partition(b"<")[2].lstrip(b" \t\r\n")
        given.add(frozenset((head, re.match(rb"[A-Za-z0-9_-]*", rest)[0])))
    out, earlier = [], []
    for spot, piece, at in spots:
        if piece in b" \t\r\n":
            out.append(piece)
        elif spot in (b"copy", b"erase"):
            if symbols.get(piece) != {b"copy": 2, b"erase": 0}[spot]:
                lack = "copier" if spot == b"copy" else "eraser"
                raise Refused(at, (lack, symbols[piece]) if piece in symbols else "word")
            others = [] if piece in earlier else [
                (it, arity) for it, arity in symbols.items()
                if len(it) <= 32 and arity <= 15 and frozenset((piece, it)) not in given and it not in earlier
            ]
            if not others:
                raise Refused(at, "again" if piece in earlier else "rules")
            earlier.append(piece)
            out.append(b";".join(rule(spot, piece, *it) for it in others))
        elif spot == "given" and piece not in b";}":
            raise Refused(at, "end")
        elif spot == "first":
            out.append(b"" if piece in (b"copy", b"erase") else piece)
        else:
            out.append(renamed.get(piece, piece))
    return b"".join(out)


def drawn_term(draw, depth, arities, names):
    if depth == 0 or draw.random() < 0.4:
        return draw.choice(names)
    symbol = draw.choice(list(arities))
    args = [drawn_term(draw, depth - 1, arities, names) for _ in range(arities[symbol])]
    return symbol + (f"({','.join(args)})" if args else "")


def drawn_text(draw):
    """Rules, copiers, erasers and a configuration, with comments and blanks; not each has a meaning."""
    arities = {it: draw.choice([0, 0, 1, 2, 2, 3]) for it in draw.sample(["A", "Bee", "C3", "D", "E", "0", "Dup", "Nil", "K1"], draw.randint(1, 7))}
    names = draw.sample(["x", "y", "a", "b", "c1", "x_1", "result", "copy", "erase", "x01", "n_", "aB", "z9z"], 5)
    gap = lambda: draw.choice(["", "", "", " ", "\n", "\t", " # a note; copy A\n", "#\n", "#é{\n"])
    rules = []
    for _ in range(draw.randint(0, 5)):
        if draw.random() < 0.5:
            rules.append(draw.choice(["copy", "erase"]) + draw.choice([" ", "\n", " #\n "]) + draw.choice(list(arities)) + gap())
        else:
            left, right = (drawn_term(draw, 2, arities, names) for _ in range(2))
            rules.append(left + gap() + ">" + gap() + "<" + gap() + right)
    equations = [drawn_term(draw, 3, arities, names) + gap() + "=" + gap() + drawn_term(draw, 3, arities, names) for _ in range(draw.randint(0, 4))]
    text = gap() + "{" + gap() + (gap() + ";" + gap()).join(rules) + gap() + "}" + gap() + "<" + ",".join(draw.choice(names) for _ in range(draw.randint(0, 3)))
    return text + "|" + (gap() + "," + gap()).join(equations) + ">" + gap()


def spoilt(draw, text):
    """A text with some pieces taken out, doubled or put elsewhere."""
    pieces = re.findall(r"\w+|\W", text)
    for _ in range(draw.randint(1, 4)):
        at = draw.randrange(len(pieces))
        pieces[at : at + draw.randint(0, 2)] = draw.choice([[], [draw.choice(pieces)], [draw.choice("{};<>|=,()#-_\n é")]])
        pieces = pieces or ["{"]
    return "".join(pieces)


def spent():
    return resource.getrusage(resource.RUSAGE_CHILDREN).ru_utime


class Worked(Trial):
    rooms = IN_MEMORY

    def test_each_worked_text_is_written_so(self):
        for name_of, (text, wanted) in WORKED.items():
            with self.subTest(name=name_of):
                self.runs("expand", given=text, out=wanted.encode())

    def test_each_refused_text_is_told_with_its_place(self):
        for name_of, (text, place, what) in REFUSED.items():
            with self.subTest(name=name_of):
                ran = run("expand", given=text)
                self.equals(ran.command, "how it ends", (1, b"", b"icserve: bad syntax\n"), (ran.status, ran.out, ran.err))
                lines = ran.after.decode().splitlines(keepends=True)
                self.equals(ran.command, "place and sentence", told(place, what), (lines[0], lines[-1]))

    def test_the_example_multiplies(self):
        plain = run("expand", TOP / "examples/product.rich")
        self.equals(plain.command, "status and standard error", (0, b""), (plain.status, plain.err))
        self.runs("reduce", given=plain.out, out=["<S(S(S(S(S(S(Z))))))|>"])
        self.equals("check", "the faults of what is written", (0, b""), run("check", "-", given=plain.out)[1:3])

    def test_what_is_written_of_a_text_of_the_calculus_is_that_text(self):
        for path in sorted(TOP.glob("examples/*.ic")):
            with self.subTest(example=path.name):
                self.runs("expand", path, out=path.read_bytes())


class Meaning(Trial):
    """What is written is reduced as it should be."""

    seconds = 20

    def reduced(self, text):
        plain = run("expand", given=text)
        self.equals(plain.command, "status and standard error", (0, b""), (plain.status, plain.err))
        return run("reduce", given=plain.out)

    def test_trees_are_copied_and_erased(self):
        draw = random.Random(f"{SEED} trees")
        for _ in range(60):
            arities = {f"T{k}": k for k in range(5)}

            def tree(depth):
                symbol = draw.choice(["T0"] if depth == 0 else list(arities))
                return symbol + (f"({','.join(tree(depth - 1) for _ in range(arities[symbol]))})" if arities[symbol] else "")

            grown = tree(4)
            ran = self.reduced(f"{{copy Dup; erase Era}}\n<one, two | Dup(one, rest)={grown}, Dup(two, lost)=rest, lost=Era> # copied twice")
            self.equals(ran.command, "the copies", (0, f"<{grown},{grown}|>\n".encode()), (ran.status, ran.out))

    def test_combinators_commute_and_annihilate(self):
        """The rules that Lafont gives the combinators, of which those of delta and epsilon are written."""
        for text, wanted in {
            "{copy Delta} <a,b,c,d|Delta(a,b)=Delta(c,d)>": "<a,b,a,b|>",
            "{copy Delta} <a,b,c,d|Gamma(a,b)=Delta(c,d)>": "<Delta(a,b),Delta(c,d),Gamma(a,c),Gamma(b,d)|>",
            "{copy Delta;erase Eps} <a,b|Eps=Delta(a,b)>": "<Eps,Eps|>",
            "{erase Eps} <a,b|Gamma(a,b)=Eps>": "<Eps,Eps|>",
            "{erase Eps} <|Eps=Eps>": "<|>",
            "{copy One;copy Two} <a,b,c,d|One(a,b)=Two(c,d)>": "<Two(a,b),Two(c,d),One(a,c),One(b,d)|>",
        }.items():
            with self.subTest(text=text):
                ran = self.reduced(text)
                self.equals(ran.command, "what it comes to", (0, wanted.encode() + b"\n", b""), (ran.status, ran.out, ran.err))


class Places(Trial):
    """A fault of what is written stands on the line on which it stood."""

    def test_faults_are_told_on_their_lines(self):
        for text, line, fault in (
            ("# one\n# two\n{A(first,second)><B} # three\n<|>", 3, "bad namecount 1"),
            ("{copy D;\n\nA(x)><A(S(x))}\n<|D(a,b)=A(c)>", 3, "bad lopsided 4"),
            ("{erase E # all\n}\n<r # one\n,r,r|E=Z>", 4, "bad name r"),
            ("<long,\n#\nlong|long\n=A()>", 4, "bad syntax"),
            ("{copy D;\nD(x,y)><D(x,y) # given\n;A><B;\nB><A} <|D(x,y)=A>", 4, "bad twice 5"),
        ):
            with self.subTest(text=text):
                plain = run("expand", given=text)
                self.equals(plain.command, "status and standard error", (0, b""), (plain.status, plain.err))
                self.equals(plain.command, "how many lines", text.count("\n"), plain.out.count(b"\n"))
                word = "settle" if "{" not in text else "reduce"
                ran = run(word, given=plain.out)
                self.equals(ran.command, "the fault", f"icserve: {fault}\n".encode(), ran.err)
                self.equals(ran.command, "its line", f"line {line},".encode(), ran.after[: len(f"line {line},")])


class Model(Trial):
    rooms = IN_MEMORY
    seconds = 30

    def compares(self, text):
        data = text.encode()
        ran = run("expand", given=data)
        if has_form(data):
            return self.ends_well(ran)
        try:
            wanted = model(data)
        except Refused as refused:
            at, what = refused.args
            body = re.sub(rb"#[^\n]*", b"", data)
            front = body[:at]
            column = len(front.rpartition(b"\n")[2].decode()) + 1
            lines = ran.after.decode().splitlines(keepends=True) or [""]
            self.equals(ran.command, "how it ends", (1, b"", b"icserve: bad syntax\n"), (ran.status, ran.out, ran.err))
            self.equals(ran.command, "place and sentence", told((front.count(b"\n") + 1, column), what), (lines[0], lines[-1]))
            return False
        self.equals(ran.command, "status and standard error", (0, b""), (ran.status, ran.err))
        self.agrees(ran.command, "what is written", wanted, ran.out)
        return True

    def ends_well(self, ran):
        """A text with forms is written or refused."""
        self.equals(ran.command, "how it ends", True, (ran.status, ran.err) in ((0, b""), (1, b"icserve: bad syntax\n")))
        return False

    def test_drawn_texts_are_written_as_the_model_writes_them(self):
        draw = random.Random(f"{SEED} expand")
        texts = [drawn_text(draw) for _ in range(300)]
        written = sum(self.compares(text) for text in texts)
        self.equals("expand", f"some are written and some refused: {written}", True, 60 < written < 300)

    def test_spoilt_texts_are_written_as_the_model_writes_them(self):
        draw = random.Random(f"{SEED} spoilt")
        for _ in range(300):
            self.compares(spoilt(draw, drawn_text(draw)))

    def test_any_bytes_are_taken(self):
        draw = random.Random(f"{SEED} bytes")
        for _ in range(100):
            data = bytes(draw.choice(b"{};<>|=,()#-_ \nABab01copy\xff\x00\x80") for _ in range(draw.randint(0, 60)))
            data = draw.choice([b"{", b"<", b" <", b"#\n{", b""]) + data
            ran = run("expand", given=data)
            if has_form(data):
                self.ends_well(ran)
                continue
            try:
                self.agrees(ran.command, "what is written", model(data), ran.out)
            except Refused:
                self.equals(ran.command, "how it ends", (1, b"", b"icserve: bad syntax\n"), (ran.status, ran.out, ran.err))


class Bounds(Trial):
    rooms = IN_MEMORY
    seconds = 30

    def test_a_text_is_as_long_as_is_wanted(self):
        self.runs("expand", given=b"<a,a|>#" + b" " * (2 * MOST), out=b"<a,a|>")
        self.runs("reduce", "--rich", given=b"{}<a,a|>#" + b" " * (2 * MOST), out=b"<a,a|>\n")

    def test_65_symbols_are_written_for_reduce_alone(self):
        symbols = [f"A{k}" for k in range(63)]
        text = "{copy D}\n<" + ",".join(symbols) + "\n|D(a,b)=Z>"
        plain = run("expand", given=text)
        self.equals(plain.command, "rules for 65 symbols", 64, plain.out.count(b";"))
        self.equals("once", "how it is refused", b"icserve: bad limit\n", run("once", given=plain.out).err)
        self.equals("reduce", "status", 0, run("reduce", given=plain.out).status)

    def test_large_texts_take_seconds(self):
        names = b"<" + b",".join(b"name_%d" % k for k in range(900_000)) + b"|>"
        marks = b"{copy D}<|D(a,b)=A>" + b"(" * 8_000_000 + b"," * 8_000_000
        nested = b"{copy D;erase E}<|D(E,E)=" + b"A(" * 7_000_000
        huge = b"<" + b"x" * 8_000_000 + b"|" + b"X" * 8_000_000 + b">"
        rules = b"{copy D;" + b"A><B;" * 3_000_000 + b"D(a,b)><Z}<|>"
        for text in (names, marks, nested, huge, rules, b"#" * MOST, b"\n" * MOST, b"<" + b"-" * (MOST - 1)):
            before = spent()
            ran = run("expand", given=text)
            took = spent() - before
            self.equals(ran.command[:60], f"within 20 seconds of processor time: {took:.2f}", True, took < 20)
            self.equals(ran.command[:60], "status and standard error", (0, b""), (ran.status, ran.err))

    def test_ten_thousand_symbols_take_three_seconds(self):
        """Symbols that are copied and erased, given rules of all of them, and as many as there are in 16 MB."""
        symbols = [b"A%d" % k for k in range(10_000)]
        uses = b",".join(b"%s(x,y)=B" % it for it in symbols)
        given = b";".join(b"%s><E" % it for it in symbols[1:])
        heads = b";".join(b"%s><A0" % it for it in symbols)
        many = b",".join(symbols) * (16_000_000 // (len(symbols) * 6))
        texts = {
            "copied and erased": b"{copy D;erase E} <|" + uses + b",D(x,y)=E>",
            "given": b"{erase E;" + given + b"} <E|" + uses + b">",
            "heads": b"{erase E;" + heads + b"} <E|A0=B>",
            "16 MB": b"{copy D;erase E} <" + many + b"|D(x,y)=E>",
        }
        for name_of, text in texts.items():
            with self.subTest(name=name_of):
                before = spent()
                ran = run("expand", given=text)
                took = spent() - before
                self.equals(ran.command, f"within 3 seconds of processor time: {took:.2f}", True, took < 3)
                self.equals(ran.command, "status and standard error", (0, b""), (ran.status, ran.err))
