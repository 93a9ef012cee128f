//! The tree as one line: every node in brackets, its name first and then all its fields. A name is its start in the script
//! and its length; what may be missing is `none` then.

use crate::linker_script::*;

struct Printer<'s> {
    script: &'s [u8],
    out: String,
}

pub(crate) fn text(script: &[u8], read: &LinkerScript) -> String {
    let mut p = Printer { script, out: String::new() };
    p.all("script", &read.commands, Printer::command);
    p.out
}

impl Printer<'_> {
    fn word(&mut self, word: &str) {
        if !self.out.is_empty() && !self.out.ends_with('(') {
            self.out.push(' ');
        }
        self.out.push_str(word);
    }

    fn open(&mut self, word: &str) {
        self.word("(");
        self.word(word);
    }

    fn close(&mut self) {
        self.out.push(')');
    }

    fn place(&mut self, address: usize, length: usize) {
        let start = address - self.script.as_ptr() as usize;
        assert!(start + length <= self.script.len());
        self.word(&format!("({start} {length})"));
    }

    fn name(&mut self, name: &[u8]) {
        self.place(name.as_ptr() as usize, name.len());
    }

    fn named(&mut self, word: &str, name: &[u8]) {
        self.open(word);
        self.name(name);
        self.close();
    }

    fn maybe<T>(&mut self, value: Option<&T>, print: impl Fn(&mut Self, &T)) {
        match value {
            Some(value) => print(self, value),
            None => self.word("none"),
        }
    }

    fn all<T>(&mut self, word: &str, values: &[T], print: impl Fn(&mut Self, &T)) {
        self.open(word);
        for value in values {
            print(self, value);
        }
        self.close();
    }

    fn definition(&mut self, name: &[u8], value: &Expression) {
        self.open("assign");
        self.name(name);
        self.expression(value);
        self.close();
    }

    fn location(&mut self, location: &Location) {
        self.expressions("set-location", &[&location.address]);
    }

    fn provide(&mut self, provide: &ProvideSymbolDefinition) {
        self.open("provide");
        self.name(provide.name);
        self.expression(&provide.value);
        self.word(if provide.hidden { "true" } else { "false" });
        self.close();
    }

    fn assertion(&mut self, assert: &AssertCommand) {
        self.open("assert");
        self.expression(&assert.expression);
        self.name(assert.message);
        self.name(assert.remainder);
        self.close();
    }

    fn command(&mut self, command: &Command) {
        match command {
            Command::Arg(name) => self.named("arg", name),
            Command::Group(inner) => self.all("group", inner, Self::command),
            Command::AsNeeded(inner) => self.all("as-needed", inner, Self::command),
            Command::Ignored => self.word("(ignored)"),
            Command::Sections(sections) => {
                self.all("sections", &sections.commands, Self::section_command)
            }
            Command::Entry(name) => self.named("entry", name),
            Command::Version(body) => self.named("version", body),
            Command::SymbolDefinition { name, value } => self.definition(name, value),
            Command::SetLocation(location) => self.location(location),
            Command::Provide(provide) => self.provide(provide),
            Command::Assert(assert) => self.assertion(assert),
            Command::Memory(regions) => self.all("memory", regions, |p, region| {
                p.open("region");
                p.name(region.name);
                p.expression(&region.origin);
                p.expression(&region.length);
                p.close();
            }),
            Command::Phdrs(phdrs) => self.all("phdrs", phdrs, |p, phdr| {
                p.open("phdr");
                p.name(phdr.name);
                p.expression(&phdr.ptype);
                p.maybe(phdr.flags.as_ref(), Self::expression);
                p.word(if phdr.has_filehdr { "true" } else { "false" });
                p.word(if phdr.has_phdrs { "true" } else { "false" });
                p.close();
            }),
            Command::OutputFormat(format) => {
                self.open("output-format");
                self.name(format.default);
                self.maybe(format.big.as_ref(), |p, name| p.name(name));
                self.maybe(format.little.as_ref(), |p, name| p.name(name));
                self.close();
            }
        }
    }

    fn section_command(&mut self, command: &SectionCommand) {
        match command {
            SectionCommand::Section(section) => self.section(section),
            SectionCommand::SetLocation(location) => self.location(location),
            SectionCommand::Assert(assert) => self.assertion(assert),
            SectionCommand::Provide(provide) => self.provide(provide),
            SectionCommand::SymbolAssignment(x) => self.definition(x.name, &x.expr),
        }
    }

    fn section(&mut self, section: &Section) {
        self.open("section");
        self.name(section.output_section_name);
        self.all("contents", &section.commands, Self::contents_command);
        self.maybe(section.alignment.as_ref(), Self::expression);
        self.maybe(section.start_address_expression.as_ref(), Self::expression);
        self.all("phdrs", &section.phdrs, |p, name| p.name(name));
        self.maybe(section.at_address.as_ref(), Self::expression);
        self.maybe(section.region.as_ref(), |p, name| p.name(name));
        self.maybe(section.fill.as_ref(), |p, fill| p.expression(&fill.value));
        self.maybe(section.attributes.as_ref(), |p, attribute| {
            p.word(match attribute {
                SectionAttributes::Noload => "noload",
                SectionAttributes::Readonly => "readonly",
                SectionAttributes::Dsect => "dsect",
                SectionAttributes::Copy => "copy",
                SectionAttributes::Info => "info",
                SectionAttributes::Overlay => "overlay",
            })
        });
        self.close();
    }

    fn contents_command(&mut self, command: &ContentsCommand) {
        match command {
            ContentsCommand::Matcher(matcher) => {
                self.open("matcher");
                self.word(if matcher.must_keep { "true" } else { "false" });
                self.maybe(matcher.input_file_pattern.as_ref(), |p, name| p.name(name));
                for pattern in &matcher.input_section_name_patterns {
                    self.open("pattern");
                    self.name(pattern.name);
                    self.word(if pattern.sorted { "true" } else { "false" });
                    self.close();
                }
                self.close();
            }
            ContentsCommand::SymbolAssignment(x) => self.definition(x.name, &x.expr),
            ContentsCommand::Provide(provide) => self.provide(provide),
            ContentsCommand::SetLocation(location) => self.location(location),
            ContentsCommand::Constructors => self.word("(constructors)"),
            ContentsCommand::Assert(assert) => self.assertion(assert),
        }
    }

    fn expressions(&mut self, word: &str, operands: &[&Expression]) {
        self.open(word);
        for operand in operands {
            self.expression(operand);
        }
        self.close();
    }

    fn expression(&mut self, expression: &Expression) {
        match expression {
            Expression::Number(value) => self.word(&format!("(number {value})")),
            Expression::Symbol(name) => self.named("symbol", name),
            Expression::LocationCounter => self.word("(location-counter)"),
            Expression::Add(l, r) => self.expressions("add", &[l, r]),
            Expression::Subtract(l, r) => self.expressions("subtract", &[l, r]),
            Expression::Multiply(l, r) => self.expressions("multiply", &[l, r]),
            Expression::Divide(l, r) => self.expressions("divide", &[l, r]),
            Expression::Modulo(l, r) => self.expressions("modulo", &[l, r]),
            Expression::LessThan(l, r) => self.expressions("less-than", &[l, r]),
            Expression::GreaterThan(l, r) => self.expressions("greater-than", &[l, r]),
            Expression::LessEqual(l, r) => self.expressions("less-equal", &[l, r]),
            Expression::GreaterEqual(l, r) => self.expressions("greater-equal", &[l, r]),
            Expression::Equal(l, r) => self.expressions("equal", &[l, r]),
            Expression::NotEqual(l, r) => self.expressions("not-equal", &[l, r]),
            Expression::Sizeof(name) => self.named("sizeof", name),
            Expression::Alignof(name) => self.named("alignof", name),
            Expression::Origin(name) => self.named("origin", name),
            Expression::Length(name) => self.named("length", name),
            Expression::Addr(name) => self.named("addr", name),
            Expression::Loadaddr(name) => self.named("loadaddr", name),
            Expression::Align(first, second) => {
                self.open("align");
                self.expression(first);
                self.maybe(second.as_deref(), Self::expression);
                self.close();
            }
            Expression::Min(l, r) => self.expressions("min", &[l, r]),
            Expression::Max(l, r) => self.expressions("max", &[l, r]),
            Expression::SegmentStart(name, default) => {
                self.open("segment-start");
                self.place(name.address, name.length);
                self.expression(default);
                self.close();
            }
            Expression::BitwiseAnd(l, r) => self.expressions("bitwise-and", &[l, r]),
            Expression::BitwiseOr(l, r) => self.expressions("bitwise-or", &[l, r]),
            Expression::BitwiseXor(l, r) => self.expressions("bitwise-xor", &[l, r]),
            Expression::LeftShift(l, r) => self.expressions("left-shift", &[l, r]),
            Expression::RightShift(l, r) => self.expressions("right-shift", &[l, r]),
            Expression::LogicalAnd(l, r) => self.expressions("logical-and", &[l, r]),
            Expression::LogicalOr(l, r) => self.expressions("logical-or", &[l, r]),
            Expression::LogicalNot(e) => self.expressions("logical-not", &[e]),
            Expression::BitwiseNot(e) => self.expressions("bitwise-not", &[e]),
            Expression::Negate(e) => self.expressions("negate", &[e]),
            Expression::SizeofHeaders => self.word("(sizeof-headers)"),
            Expression::Ternary(c, yes, no) => self.expressions("ternary", &[c, yes, no]),
            Expression::Defined(name) => self.named("defined", name),
            Expression::Assert(assert) => self.assertion(assert),
            Expression::Absolute(e) => self.expressions("absolute", &[e]),
        }
    }
}
