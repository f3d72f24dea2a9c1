"""Texts, well and badly formed, of all sizes up to the limits: what the program reads, prints and refuses."""

import draws
import model
from against_model import ModelTrial
from worked_rows import short_texts

SYSTEMS = short_texts("texts", "system", "once")
CONFIGS = short_texts("texts", "config", "settle")
LINES = short_texts("commands", "line")


def nested(depth, closed=True):
    return "A(" * depth + "Z" + ")" * (depth if closed else 0)


def well_formed(drawn):
    text = draws.system_text(*draws.system(drawn, drawn.choice([1, 2, 3, 5, 9]), drawn.choice([3, 6, 15])))
    return draws.spaced(drawn, text) if drawn.random() < 0.3 else text


def spoilt(drawn):
    text = draws.system_text(*draws.system(drawn, drawn.choice([1, 1, 2, 3]), drawn.choice([2, 3, 6]))).encode()
    for _ in range(drawn.choice([1, 1, 2, 3])):
        text = draws.spoilt(drawn, text)
    return text


def of_several_faults(drawn):
    rule_set, config = draws.system(drawn, drawn.choice([2, 3, 4]), 3, lopsided=0.4)
    listed = [draws.rule_text(rule_set, it) for it in rule_set.rules]
    listed += drawn.sample(listed, min(len(listed), drawn.choice([0, 0, 1, 2])))
    drawn.shuffle(listed)
    rules, rest = ("{" + ";".join(listed) + "}").encode(), model.printed(rule_set, config).encode()
    for _ in range(drawn.choice([0, 0, 1, 3])):
        rules = draws.renamed(drawn, rules)
    for _ in range(drawn.choice([0, 1, 4])):
        rest = draws.renamed(drawn, rest)
    return rules + rest


def of_faulty_rules(drawn):
    rule_set, config = draws.system(drawn, drawn.choice([1, 2, 3]), 4, lopsided=0.5)
    listed = [draws.rule_text(rule_set, it) for it in rule_set.rules]
    if listed and drawn.random() < 0.4:
        left, right = drawn.choice(listed).split("><")
        again = drawn.choice([f"{right}><{left}", f"{left}><{right}", f"{left}><{left}"])
        listed.insert(drawn.randrange(len(listed) + 1), again)
    text = "{" + ";".join(listed) + "}" + model.printed(rule_set, config)
    return draws.altered(drawn, text.encode()) if drawn.random() < 0.3 else text


class TextTrial(ModelTrial):
    def reads(self, texts):
        """Texts as systems that are submitted, shown and cancelled again."""
        lines = []
        for text in texts:
            lines += [b"submit a " + (text.encode() if isinstance(text, str) else text), b"fetch a", b"cancel a"]
        for at in range(0, len(lines), 3_000):
            self.serve(self.new_disk(), lines[at : at + 3_000])


class DrawnTexts(TextTrial):
    seconds = 8

    def test_each_front_of_a_system(self):
        self.reads(dict.fromkeys(text[:at] for text in SYSTEMS for at in range(len(text) + 1)))

    def test_each_front_of_a_configuration(self):
        self.reads(dict.fromkeys(b"{}" + text[:at] for text in CONFIGS for at in range(len(text) + 1)))

    def test_each_front_of_a_line(self):
        self.serve(self.new_disk(), list(dict.fromkeys(text[:at] for text in LINES for at in range(len(text) + 1))))

    def test_one_byte_changed(self):
        drawn = self.draws()
        changed = []
        for text in SYSTEMS + [b"{}" + it for it in CONFIGS]:
            for at in drawn.sample(range(len(text)), min(len(text), 40)):
                changed.append(text[:at] + bytes([drawn.choice([*draws.BYTES, drawn.randrange(256)])]) + text[at + 1 :])
        self.reads(changed)

    def test_one_byte_of_a_line_changed(self):
        drawn = self.draws()
        changed = []
        for text in LINES:
            for at in drawn.sample(range(len(text)), min(len(text), 20)):
                changed.append(text[:at] + bytes([drawn.choice([*draws.BYTES, drawn.randrange(256)])]) + text[at + 1 :])
        self.serve(self.new_disk(), changed)

    def test_systems(self):
        drawn = self.draws()
        self.reads([well_formed(drawn) for _ in range(700)])

    def test_spoilt_systems(self):
        drawn = self.draws()
        self.reads([spoilt(drawn) for _ in range(1_500)])

    def test_several_faults_at_once(self):
        drawn = self.draws()
        self.reads([of_several_faults(drawn) for _ in range(1_000)])

    def test_rules_with_faults(self):
        drawn = self.draws()
        self.reads([of_faulty_rules(drawn) for _ in range(1_000)])

    def test_faults_of_late_rules(self):
        drawn = self.draws()
        texts = []
        for _ in range(150):
            symbols = draws.symbols(drawn, drawn.randint(20, 60), 2, 3)
            lopsided = drawn.choice([0, 0, 0.1])
            rule_set = draws.rules(drawn, symbols, drawn.choice([9, 17, 65, 130, 256]), 1, lopsided)
            listed = [draws.rule_text(rule_set, it) for it in rule_set.rules]
            for _ in range(drawn.choice([0, 1, 1, 2])):
                at, how = drawn.randrange(len(listed)), drawn.randrange(4)
                left, right = listed[at].split("><")
                if how == 0:
                    listed[at] = draws.renamed(drawn, listed[at].encode()).decode()
                elif how == 1:
                    listed[at] = drawn.choice([f"{left}><{left}", f"{right}><{left}"])
                elif how == 2 and len(listed) < 256:
                    listed.insert(drawn.randrange(len(listed)), f"{right}><{left}")
                else:
                    listed[at] = draws.altered(drawn, listed[at].encode()).decode()
            texts.append("{" + ";".join(listed) + "}<|>")
        self.reads(texts)

    def test_texts_of_1_000_to_16_000_bytes(self):
        drawn = self.draws()
        texts = [draws.sized_system(drawn, 1_000, 16_000) for _ in range(60)]
        self.reads(texts)
        change = [draws.spoilt, draws.altered, draws.renamed]
        self.reads([drawn.choice(change)(drawn, text.encode()) for text in texts])
        for text in texts[:20]:
            self.streamed("once", text.encode())
            self.streamed("settle", text[text.index("}") + 1 :].encode())

    def test_texts_up_to_the_limit(self):
        drawn = self.draws()
        texts = [draws.sized_system(drawn, 16_000, drawn.choice([100_000, 262_000])) for _ in range(10)]
        self.reads(texts)
        self.reads([draws.renamed(drawn, text.encode()) for text in texts[:5]])
        for text in texts:
            self.streamed("once", text.encode())
            self.streamed("settle", text[text.index("}") + 1 :].encode())

    def test_lengths_at_the_limit(self):
        drawn = self.draws()
        for length in (262_143, 262_144, 262_145, 262_146):
            line = draws.padded(drawn, "submit a {A(x)><B(x)}<z|A(x)=B(y),x=y>", length)
            blank = " " * length
            for lines in (f"list\n{line}\nlist\n", f"list\n{line}", f"{line[:length - 1]}\r\nfetch a", f"{blank}\nlist"):
                self.serve(self.new_disk(), lines.encode())
            self.streamed("settle", draws.padded(drawn, "<r|r=S(s),s=Z>", length).encode())
            self.streamed("once", draws.padded(drawn, "{A(x)><B(x)}<z|A(x)=B(y),x=y>", length).encode())
            self.streamed("settle", b"<" * length)

    def test_configurations_settled(self):
        drawn = self.draws()
        for _ in range(400):
            symbols = draws.symbols(drawn, drawn.randint(1, 5), 3)
            config = draws.configuration(
                drawn, model.Rules(symbols, []), drawn.randrange(4), drawn.randrange(12), drawn.choice([1, 2, 4])
            )
            text = model.printed(model.Rules(symbols, []), config).encode()
            self.streamed("settle", text)
            self.streamed("settle", draws.spoilt(drawn, text))

    def test_long_chains_settled(self):
        drawn = self.draws()
        for _ in range(30):
            count = drawn.randint(1, 2_700)
            links = [f"{model.name_text(at)}=S({model.name_text(at + 1)})" for at in range(count)]
            if drawn.random() < 0.7:
                drawn.shuffle(links)
            links = ["=".join(reversed(it.split("="))) if drawn.random() < 0.3 else it for it in links]
            self.streamed("settle", f"<a|{','.join(links)}>".encode())

    def test_long_chains_of_names_settled(self):
        drawn = self.draws()
        for _ in range(30):
            count = drawn.choice([2, 3, 10, drawn.randint(1, 4_000), 4_090])
            names = [model.name_text(at) for at in drawn.sample(range(10_000), count + 1)]
            if drawn.random() < 0.3:
                names[-1] = names[0]
            links = [drawn.sample(pair, 2) for pair in zip(names, names[1:])]
            if drawn.random() < 0.7:
                drawn.shuffle(links)
            # Each end may stand in the interface, and nowhere else.
            ends = [it for it in {names[0], names[-1]} if drawn.random() < 0.5 and names[0] != names[-1]]
            self.streamed("settle", f"<{','.join(ends)}|{','.join('='.join(it) for it in links)}>".encode())

    def test_each_front_of_one_sum(self):
        text = b"{Add(x,x)><Z;Add(S(x),y)><S(Add(x,y))}<r|Add(r,S(Z))=S(Z)>"
        for at in range(len(text) + 1):
            self.streamed("once", text[:at])
        self.reads(text[:at] for at in range(len(text) + 1))

    def test_agents_nested_80_000_deep(self):
        for depth in (8_189, 8_190, 8_191, 80_000):
            for end in (")" * depth, ")" * (depth - 1), ""):
                text = f"<|{'A(' * depth}B{end}=C>"
                self.streamed("settle", text.encode())
                self.streamed("once", f"{{}}{text}".encode())
                self.reads([f"{{}}{text}"])

    def test_deep_terms(self):
        for depth in (2_045, 2_047, 2_048, 8_180, 8_190, 8_191, 8_192, 8_193, 80_000):
            for closed in (True, False):
                deep = nested(depth, closed)
                self.streamed("settle", f"<{deep}|>".encode())
                self.streamed("settle", f"<|x={deep},x=y>".encode())
                self.streamed("once", f"{{B({deep})><C}}<|B({deep})=C>".encode())
                self.reads([f"{{}}<{deep}|>", f"{{B({deep})><C}}<|>", f"{{B><A(x)}}<|{deep}=B>"])

    def test_limits(self):
        def many(count, text="A", between=","):
            return between.join([text] * count)

        def counted(count, text, between=","):
            return between.join(text.replace("#", str(at)) for at in range(1, count + 1))

        texts = []
        for more in (-1, 0, 1):
            texts += [
                f"{{}}<|{many(4_096 + more, 'A=A')}>",
                f"{{}}<|{many(4_095, 'Z=Z')},Z={nested(more + 1)}>",
                f"{{}}<{many(64 + more)}|>",
                f"{{}}<{counted(64 + more, 'A#')}|>",
                f"{{{counted(64 + more, 'A#><B', ';')}}}<|>",
                f"{{}}<{'A' * (32 + more)}|>",
                f"{{{'A' * (32 + more)}><B}}<|>",
                f"{{}}<A({many(15 + more, 'Z')})|>",
                f"{{A({many(15 + more, 'Z')})><B}}<|>",
                f"{{A><B;A><B({many(15 + more, 'x')})}}<|>",
                "{" + ";".join(f"A{at % 16}><B{at // 16}" for at in range(256 + more)) + "}<|>",
                f"{{C({nested(2_046 + more)})><B(Z)}}<|>",
                f"{{B({nested(1_022)})><C(Z);C({nested(1_021 + more)})><D(Z)}}<|>",
                f"{{}}<{model.name_text(2**32 - 1 + more)}|>",
                f"{{}}<|A=B({model.name_text(2**32 - 1 + more)})>",
                f"{{A({model.name_text(2**32 - 1 + more)})><B({model.name_text(2**32 - 1 + more)})}}<|>",
            ]
        texts += [f"{{}}<{letter}{'9' * digits}|>" for letter in "az" for digits in (8, 9, 10, 19, 20, 39, 5_000)]
        self.reads(texts)

    def test_names_of_jobs_and_numbers_of_runs(self):
        words = [f"{'a' * length}{end}" for length in (1, 14, 15, 16, 17, 40, 9_999) for end in ("", "-", "9")]
        lines = [f"{word} {name}" for name in words for word in ("fetch", "pause", "resume", "cancel")]
        lines += [f"submit {name} {{}} <|>" for name in words] + [f"submit {name} {{A><B}} <|A(x)=B>" for name in words]
        numbers = ["0", "00", "1", "01", "007", "999", "1000", "1001", "9999", "10000", "4294967296", "1e3", "-1", "9" * 20]
        self.serve(self.new_disk(), lines + [f"run {number}" for number in [*numbers, "9" * 9_999]])
