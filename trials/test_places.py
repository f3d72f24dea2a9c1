"""What standard error tells after the line of a refused text: the line and the column, the line of the text with a mark under
the place, and what is amiss there. The model of `places.py` says what is to be told. The first lines are tried in
test_statuses.py."""

import re

import draws
import model
import places
from known import TEXT_WORDS, words_for
from program import Trial, run
from worked_rows import expanded, rows, short_texts

# Which word of the program reads which kind of text, and the kinds of rows with such texts.
SYSTEM_WORDS, WORDS = words_for("system"), words_for("configuration", "system", "either")
CONFIGS = ("config", "settle", "config_place", "settle_told")
SYSTEMS = ("system", "once", "system_place", "once_told")


def rows_of(*kinds):
    return rows("texts", *kinds)


def short_texts_of(*kinds):
    return short_texts("texts", *kinds)


def near(drawn, most):
    """A number near the most that there may be, or none."""
    return drawn.choice([0, 0, most - 1, most, most + 1, most + 2])


def nested(nodes):
    """The one argument of an agent, of so many nodes, with its parentheses; nothing for none."""
    return "(" + "S(" * (nodes - 1) + "Z" + ")" * nodes if nodes else ""


class Places(Trial):
    seconds = 15

    def tells(self, word, text):
        """Fails unless a text that this word refuses has the place of the model told, and another nothing."""
        found = "system" if text.lstrip(b" \t\r\n").startswith(b"{") else "configuration"
        kind = found if TEXT_WORDS[word] == "either" else TEXT_WORDS[word]
        ran = run(word, *(["--limits", "served"] if word in ("reduce", "trace") else []), given=text)
        self.agrees(ran.command, "what stands after the first line", places.told(text, kind), ran.after)
        if ran.after:
            first = b" ".join(ran.err.split(b" ")[:3]).strip()
            line = f"icserve: bad {places.found(text, kind)[0]}".encode()
            self.equals(ran.command, "status and first line", (1, line, b""), (ran.status, first, ran.out))
        else:
            self.equals(ran.command, "a fault of syntax", False, ran.err == b"icserve: bad syntax\n")

    def test_each_row(self):
        for word, kinds in (("settle", CONFIGS), ("once", SYSTEMS)):
            for _, _, text, _ in rows_of(*kinds):
                self.tells(word, expanded(text))

    def test_fronts_of_texts(self):
        drawn = self.draws()
        for word, kinds in (("settle", CONFIGS), ("once", SYSTEMS)):
            fronts = dict.fromkeys(text[:at] for text in short_texts_of(*kinds) for at in range(len(text) + 1))
            for text in drawn.sample(list(fronts), min(len(fronts), 150)):
                self.tells(word, text)

    def test_drawn_texts_that_are_spoilt(self):
        drawn = self.draws()
        for _ in range(150):
            rule_set, config = draws.system(drawn, drawn.choice([1, 2, 5]), drawn.choice([2, 3, 6]))
            system, configuration = draws.system_text(rule_set, config), model.printed(rule_set, config)
            word = drawn.choice(SYSTEM_WORDS)
            for word, text in ((word, system), ("settle", configuration), (drawn.choice(words_for("either")), drawn.choice([system, configuration]))):
                text = draws.spaced(drawn, text) if drawn.random() < 0.5 else text
                text = text.encode() if isinstance(text, str) else text
                for _ in range(drawn.choice([1, 1, 2])):
                    text = draws.spoilt(drawn, text)
                self.tells(word, text)

    def test_a_text_of_the_other_kind(self):
        self.tells("settle", b"{} <|>")
        for word in SYSTEM_WORDS:
            self.tells(word, b"<|>")
        for text in (b"{} <|> <|>", b" \n{}", b"{", b"<|>{}", b"", b"\0{} <|>"):
            for word in words_for("either"):
                self.tells(word, text)
        for word in WORDS:
            self.tells(word, b"submit two {} <|>\n")
            self.tells(word, b"# a comment\n<|>")

    def test_limits_of_words_and_arities(self):
        symbols = [f"S{it}" for it in range(65)]
        for faulty in ("A" * 33, "B" + "(" + ",".join("C" * 16) + ")", "v165191050", "z9999999999", ",".join(symbols)):
            for text in (f"<r, {faulty}|>", f"<r|r={faulty}>", f"<|A=A(x),\n\t{faulty}=r>", f"<\xe9|{faulty}=r>"):
                self.tells("settle", text.encode())
                self.tells("once", f"{{A><{faulty.split(',')[0]}}}".encode() + text.encode())
        for text in ("<|A=A(x)>", "<|A(x,y)=\r\nA(A(x),y)>", "<A|A(x)=A(y,z)>"):
            self.tells("settle", text.encode())
            self.tells("once", b"{A><A(B)}" + text.encode())

    def test_too_many_rules_terms_and_nodes(self):
        drawn = self.draws()
        for _ in range(60):
            rules = ["A><B"] * near(drawn, places.MOST_RULES)
            rules += [f"A{nested(near(drawn, places.MOST_RULE_NODES))}><B"] * drawn.choice([0, 1, 1])
            terms = ["C"] * near(drawn, places.MOST_TERMS)
            terms += [f"D{nested(near(drawn, places.MOST_NODES))}"] * drawn.choice([0, 0, 1])
            equations = ["A=B"] * near(drawn, places.MOST_NODES // 2)
            for items, faulty in ((rules, f"A(v165191050)><{'B' * 33}"), (terms, "B" * 33), (equations, "A(B)=A")):
                drawn.shuffle(items)
                if drawn.random() < 0.3:
                    items.insert(drawn.randint(0, len(items)), faulty)
            config = f"<{','.join(terms)}|\n{','.join(equations)}>"
            self.tells("settle", config.encode())
            self.tells(drawn.choice(SYSTEM_WORDS), f"{{{';'.join(rules)}}}\n{config}".encode())

    def test_names_and_rules(self):
        drawn = self.draws()
        for _ in range(100):
            rule_set, config = draws.system(drawn, drawn.choice([1, 2, 5]), drawn.choice([2, 3, 6]))
            rules, after, rest = draws.system_text(rule_set, config).partition("}")
            if drawn.random() < 0.3:
                rules += (";" if rules.strip() != "{" else "") + drawn.choice(rules.strip(" {").split(";") + ["A(x,y)><A(x,y)"])
            text = rules + after + rest
            names = list(re.finditer(r"(?<![A-Za-z0-9])[a-z][0-9]*", text))
            for name in sorted(drawn.sample(names, min(len(names), drawn.choice([0, 1, 1, 2]))), key=lambda it: -it.start()):
                text = text[: name.start()] + drawn.choice(names).group() + text[name.end() :]
            self.tells(drawn.choice(SYSTEM_WORDS), text.encode())
            self.tells("settle", rest.encode())

    def test_texts_of_the_greatest_length(self):
        for word in WORDS:
            pieces = (b"<", b" ", b"\xc3\xa9", b"\t\xff", b"x\n", b"\r\n", b"\n") if word in ("settle", "once") else (b"x\n",)
            for text in pieces:
                long = text * places.MOST_BYTES
                for most in (places.MOST_BYTES, places.MOST_BYTES + 1, 2 * places.MOST_BYTES):
                    self.tells(word, long[:most])

    def test_a_text_of_many_lines(self):
        for end in (b"\n", b"\r\n", b"\r"):
            text = b"<|" + end * 100_000 + b"\tA=B, " + b"Add(A,B)" * 20 + b">" + end
            ran = run("settle", given=text)
            line, column = (1, 100_017) if end == b"\r" else (100_001, 15)
            self.agrees(ran.command, "the place", f"line {line}, column {column}", ran.after.split(b"\n")[0])
            self.tells("settle", text)

    def test_nothing_is_told_of_a_refused_round_and_of_other_faults(self):
        deep = "C(" * 8187 + "D" + ")" * 8187
        ran = run("once", given=f"{{A><B(C(C(D)))}} <|A=B(P),{deep}=Q>")
        self.equals(ran.command, "status and lines", (1, 1, b""), (ran.status, ran.err.count(b"\n"), ran.after))
