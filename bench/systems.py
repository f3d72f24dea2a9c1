"""What is timed: the systems of docs/speed.md, each a text or lines with the words of the program that reads them."""

import itertools
import random
import re
from typing import NamedTuple

ADD = "{Add(x,x)><Z;Add(S(x),y)><S(Add(x,y))}"
LOOP = "{A(B(x))><B(A(x))}"
GROW = "{A(B(x),S(y))><B(A(x,y))} <r|A(x,r)=B(x)>"
DUP = "Dup(Z,Z)><Z;Dup(S(x),S(y))><S(Dup(x,y))"
MULTIPLY = f"{{Add(x,x)><Z;Add(S(x),y)><S(Add(x,y));Mul(Z,Eps)><Z;Mul(r,Dup(y,z))><S(Mul(Add(r,z),y));{DUP};Eps><Z;Eps><S(Eps)}}"
ACKERMANN = f"{{Ack(S(x),x)><Z;Ack(r,Again(r,m))><S(m);Again(r,Ack(r,S(Z)))><Z;Again(r,Dup(Ack(r,k),m))><S(Again(k,m));{DUP}}}"
FIBONACCI = f"{{Add(x,x)><Z;Add(S(x),y)><S(Add(x,y));{DUP};F(Z)><Z;F(r)><S(G(r));G(S(Z))><Z;G(r)><S(Dup(G(Add(r,u)),F(u)))}}"
SORT = "{Sort(Nil)><Nil;Sort(r)><Cons(h,Sort(Insert(r,h)));Insert(Cons(x,Nil),x)><Nil;Insert(Cons(l,r),Min(l,k,h))><Cons(h,Insert(r,k));"
SORT += "Min(Z,x,x)><Z;Min(l,h,Mid(l,h,x))><S(x);Mid(Z,S(x),x)><Z;Mid(S(l),S(h),Min(l,h,y))><S(y)}"
CHURCH = "{Lam(x,y)><App(x,y);D(x,y)><D(x,y);E(x,y)><E(x,y);D(E(a,b),E(c,d))><E(D(a,c),D(b,d));D(Lam(a,b),Lam(c,d))><Lam(D(a,c),D(b,d));"
CHURCH += "E(Lam(a,b),Lam(c,d))><Lam(E(a,c),E(b,d));D(App(a,b),App(c,d))><App(D(a,c),D(b,d));E(App(a,b),App(c,d))><App(E(a,c),E(b,d));"
CHURCH += "D(S(x),S(y))><S(D(x,y));E(S(x),S(y))><S(E(x,y));D(Z,Z)><Z;E(Z,Z)><Z}"
COMMUTE = "{Gamma(x,y)><Gamma(y,x);Delta(x,y)><Delta(x,y);Eps><Eps;Eps><Gamma(Eps,Eps);Eps><Delta(Eps,Eps);"
COMMUTE += "Gamma(Delta(a,b),Delta(c,d))><Delta(Gamma(a,c),Gamma(b,d))}"
REVERSE = "{Rev(x,x)><Z;Rev(r,a)><S(Rev(r,S(a)))}"
BINARY = f"{{Add(x,x)><E;Add(r,AO(r,n))><O(n);Add(r,AI(r,n))><I(n);AO(O(x),x)><E;AO(O(s),Add(s,m))><O(m);AO(I(s),Add(s,m))><I(m);"
BINARY += "AI(I(x),x)><E;AI(I(s),Add(s,m))><O(m);AI(O(s),Add(Inc(s),m))><I(m);Inc(I(E))><E;Inc(I(x))><O(x);Inc(O(s))><I(Inc(s));"
BINARY += f"F(E)><Z;F(r)><S(G(r));G(I(E))><Z;G(r)><S(Dup(G(Add(r,u)),F(u)));{DUP}}}"
TREES = f"{{Add(x,x)><Z;Add(S(x),y)><S(Add(x,y));{DUP};Build(Leaf)><Z;Build(Node(l,k))><S(Dup(Build(l),Build(k)));"
TREES += "Turn(Leaf)><Leaf;Turn(Node(l,k))><Node(Turn(k),Turn(l));Total(S(Z))><Leaf;Total(r)><Node(Total(Add(r,m)),Total(m))}"
EATS = "{Eat(Done)><Z;Eat(r)><S(Eat(r))}"
WALKS = "{Walk(Z)><Z;Walk(S(r))><S(Walk(r))}"


class Row(NamedTuple):
    """`pairs` is how many interactions a round is, where they are to be told, and `keeps` says that the disk is to be a real one.
    A `reduce` in place tells its interactions itself."""

    what: str
    words: list
    given: str
    pairs: int = 0
    keeps: bool = False

    def is_in_place(self):
        return self.words[0] == "reduce" and "--rounds" not in self.words


def loops(count):
    """Pairs that fire in every round."""
    return f"{LOOP} <|{','.join(f'A(x{i})=B(x{i})' for i in range(1, count + 1))}>"


def growing(nodes):
    """One pair that fires in every round and leaves a node more, beside so many nodes at first."""
    return f"{{A(B(x),S(y))><B(A(x,y))}} <{'S(' * nodes}r{')' * nodes}|A(x,r)=B(x)>"


def lines(*parts):
    return "".join(f"{line}\n" for part in parts for line in part)


def of_texts(size):
    bytes_of, nodes, names, pairs, rounds = size(262_144), size(8_192), size(2_000), size(1_000), size(1_000)
    wide, deep = ",".join(["A(x)=B"] * (bytes_of // 7 - 1)), bytes_of * 80 // 262
    chain = ",".join(f"x{i}=S(x{i + 1})" for i in range(1, names + 1))
    yield Row("start: settle of <|>", ["settle"], "<|>")
    yield Row(f"settle: {bytes_of:,} bytes that are refused, wide", ["settle"], f"<|{wide}>".ljust(bytes_of))
    yield Row(f"settle: {bytes_of:,} bytes that are refused, deep", ["settle"], f"<|{'A(' * deep}B{')' * deep}=C>".ljust(bytes_of))
    yield Row(f"settle: {nodes:,} nodes, wide", ["settle"], f"<|{','.join(['A=B'] * (nodes // 2))}>")
    yield Row(f"settle: {nodes:,} nodes, deep", ["settle"], f"<|{'A(' * (nodes - 2)}B{')' * (nodes - 2)}=C>")
    yield Row(f"settle: a chain of {names:,} names", ["settle"], f"<x1|{chain},x{names + 1}=Z>")
    yield Row(f"once: {pairs:,} active pairs", ["once"], loops(pairs), pairs)
    yield Row(f"reduce: {rounds:,} rounds of {pairs:,} pairs", ["reduce", "--rounds", str(rounds)], loops(pairs), pairs)


def numeral(number):
    return "S(" * number + "Z" + ")" * number


def church(number):
    """Church's number applied to his two, and that to a successor and zero: two to the power of the number."""
    tree = f"App(x{number},x{number + 1})"
    for it in range(number - 1, 0, -1):
        tree = f"D(App(x{it},x{it + 1}),{tree})"
    return f"{CHURCH} <r|Lam({tree},Lam(x1,x{number + 1}))=App(Lam(E(App(p,q),App(s,p)),Lam(s,q)),App(Lam(y,S(y)),App(Z,r)))>"


def full(symbol, levels):
    """A full tree of agents of one symbol, with erasers at its leaves."""
    below = full(symbol, levels - 1) if levels else ""
    return f"{symbol}({below},{below})" if levels else "Eps"


def reversed_often(length, times):
    return f"{REVERSE} <r|{'Rev(' * times}r{',Z)' * times}={numeral(length)}>"


def of_nets(size):
    """What is reduced in place, by one thread. Of those that grow fast, a part of a size lies between a least one and the whole."""

    def less(whole, least):
        return least + (whole - least) * size(1_000) // 1_000

    def sort(count):
        turned = list(range(count))
        turned = turned[1::2] + turned[::-2]
        return f"{SORT} <r|Sort(r)={''.join(f'Cons({numeral(it)},' for it in turned)}Nil{')' * count}>"

    chain, long, levels = numeral(size(8_000)), numeral(size(1_000_000)), less(11, 2)
    for what, given in (
        (f"{less(300, 3)} times {less(300, 3)}", f"{MULTIPLY} <r|Mul(r,{numeral(less(300, 3))})={numeral(less(300, 3))}>"),
        (f"Ackermann's function of 2 and {size(1_000):,}", f"{ACKERMANN} <r|Ack(r,{numeral(size(1_000))})={numeral(2)}>"),
        (f"Ackermann's function of 3 and {less(9, 3)}", f"{ACKERMANN} <r|Ack(r,{numeral(less(9, 3))})={numeral(3)}>"),
        (f"Fibonacci's number {less(27, 9)}", f"{FIBONACCI} <r|F(r)={numeral(less(27, 9))}>"),
        *((f"an insertion sort of {it} numbers", sort(it)) for it in (size(110), size(500))),
        (f"combinators that commute, trees of {levels} levels", f"{COMMUTE} <|{full('Gamma', levels)}={full('Delta', levels)}>"),
        (f"a list of {size(1_000):,}, reversed {size(1_000):,} times", reversed_often(size(1_000), size(1_000))),
        (f"Church's 2 to the power of {less(20, 5)}", church(less(20, 5))),
        (f"a chain of {size(8_000):,} agents is eaten", f"{EATS} <r|Eat(r)={chain}>"),
        (f"an agent walks along a chain of {size(8_000):,}", f"{WALKS} <r|Walk(r)={chain}>"),
        (f"{size(1_000):,} agents each eat {size(3_000):,}", f"{EATS} <|{','.join([f'Eat(Done)={numeral(size(3_000))}'] * size(1_000))}>"),
        (f"an agent eats {size(1_000_000):,}", f"{EATS} <r|Eat(r)={long}>"),
        (f"an agent walks through {size(1_000_000):,}", f"{WALKS} <r|Walk(r)={long}>"),
    ):
        yield Row(f"reduce: {what}", ["reduce", "--workers", "1"], given)


def numbers(count):
    return range(1, count + 1)


def tree(drawn, number):
    """Four agents of drawn symbols, and the name of a number."""
    pair, single, other, leaf = (f"{form}{drawn.randint(0, 9)}" for form in ("Pair", "One", "Two", "Leaf"))
    return f"{pair}({single}(x{number}),{other}({leaf}))"


def of_large_texts(size):
    """Texts of some hundred million bytes, which are read, reduced and printed. Each is made as it is asked for."""
    nodes, drawn = size(33_000_000), random.Random(1)
    pairs, trees, sums = nodes // 4, nodes // 9, nodes // 12
    for what, given in (
        ("pairs of names, near each other", lambda: f"{{}} <{','.join(f'x{it},x{it}' for it in numbers(pairs))}|>"),
        ("pairs of names, far apart", lambda: f"{{}} <{','.join(f'x{it}' for half in '12' for it in numbers(pairs))}|>"),
        ("trees of 40 symbols and of names", lambda: f"{{}} <{','.join(f'x{it},{tree(drawn, it)}' for it in numbers(trees))}|>"),
        ("additions", lambda: f"{ADD} <{','.join(f'x{it}' for it in numbers(sums))}|{','.join(f'Add(x{it},S(S(Z)))=S(S(Z))' for it in numbers(sums))}>"),
        ("one agent in the other", lambda: f"{{}} <{numeral(nodes)}|>"),
    ):
        yield Row(f"large text: {what}", ["reduce", "--workers", "1"], given())


def of_threads(size):
    """What several threads reduce, by as many as stand there."""
    nets = {it.what.partition(": ")[2]: it.given for it in of_nets(size) if re.search(r"Fib|commute|\d times \d|of 3 and|Church|sort of \d\d", it.what)}
    number, levels = 9 + 18 * size(1_000) // 1_000, 3 + 17 * size(1_000) // 1_000
    nets[f"Fibonacci's number {number} in binary"] = f"{BINARY} <r|F(r)={numeral(number)}>"
    nets[f"a tree of 2^{levels} leaves, built, turned and added up"] = f"{TREES} <r|Build(Turn(Total(r)))={numeral(levels)}>"
    for what, given in nets.items():
        for workers in "124":
            yield Row(f"by {workers} threads: {what}", ["reduce", "--workers", workers], given)


def of_rounds(size):
    """What is reduced by rounds, traced, and reduced with --span, beside any order by one thread."""
    kinds = r"Fib|commute|\d times \d|of 3 and|sort of [45]\d\d|walks through"
    nets = {it.what.partition(": ")[2]: it.given for it in of_nets(size) if re.search(kinds, it.what)}
    most = str(10**9)
    for what, given in nets.items():
        yield Row(f"in any order: {what}", ["reduce", "--workers", "1"], given)
        yield Row(f"by rounds: {what}", ["reduce", "--rounds", most], given)
        yield Row(f"traced: {what}", ["trace", "--rounds", most], given)
        for workers in "124":
            yield Row(f"span by {workers} threads: {what}", ["reduce", "--span", "--workers", workers], given)
    idle = f"{LOOP} <{numeral(size(1_000_000))}|A(x)=B(x)>"
    for rounds in (1, size(3_000_000)):
        yield Row(f"by rounds: {rounds:,} rounds of a pair beside {size(1_000_000):,} idle nodes", ["reduce", "--quiet-answer", "--rounds", str(rounds)], idle)


def of_lines(size):
    seldom = ["--every", "1000000", "--workers"]
    runs, rounds, pairs, nodes, asked = size(300), size(1_000), size(1_000), size(8_192), size(20_000)
    yield Row("start: serve without a line", ["serve"], "")
    yield Row(
        f"serve: {runs:,} times {rounds:,} rounds of one pair",
        ["serve", *seldom, "1"],
        lines([f"submit loop {loops(1)}"], [f"run {rounds}"] * runs),
        pairs=1,
    )
    yield Row(
        f"serve: at most {9 * rounds:,} rounds of a growing job",
        ["serve", *seldom, "1"],
        lines([f"submit grow {GROW}"], [f"run {rounds}"] * 9),
        pairs=1,
    )
    for workers in "124":
        yield Row(
            f"serve: {rounds:,} rounds of {pairs:,} pairs, {workers} workers",
            ["serve", *seldom, workers],
            lines([f"submit many {loops(pairs)}", f"run {rounds}"]),
            pairs,
        )
    two = f"{ADD} <r|Add(r,S(Z))=S(Z)>"
    yield Row(
        f"serve: {runs:,} commands that are kept on a disk",
        ["serve"],
        lines([f"submit two {two}"], (["pause two", "resume two"] * runs)[: runs - 1]),
        keeps=True,
    )
    large = ",".join(["F(" + ",".join(["Z"] * 15) + ")=G"] * (nodes // 17 - 7))
    yield Row(
        f"serve: a table of 32 jobs of {nodes:,} nodes, 20 keeps",
        ["serve"],
        lines((f"submit j{i} {{}} <{','.join(['S(Z)'] * 64)}|{large}>" for i in range(31)), [f"submit loop {loops(1)}"], ["pause loop", "resume loop"] * 10),
    )
    yield Row(
        f"serve: {asked:,} lines of lists and fetches",
        ["serve"],
        lines((f"submit j{i} {two}" for i in range(32)), (it for i in range(asked // 2) for it in ("list", f"fetch j{i % 32}"))),
    )
    yield Row(
        f"serve: {size(500):,} fetches of a job of {nodes:,} nodes",
        ["serve"],
        lines([f"submit deep {{}} <{'S(' * (nodes - 1)}Z{')' * (nodes - 1)}|>"], ["fetch deep"] * size(500)),
    )


def rows(part, others=False):
    """The rows, or the other ones, of large texts and of several threads, with their numbers taken times this part."""

    def size(whole):
        return max(1, round(whole * part))

    return itertools.chain(of_large_texts(size), of_threads(size), of_rounds(size)) if others else [*of_texts(size), *of_nets(size), *of_lines(size)]
