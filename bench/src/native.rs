//! The ceiling: each rule text as a C function of its own, compiled by `gcc -O2` and loaded. It tests what scan must test of a state
//! and a row (18, 13) and of the rules at work (14 to 17, 22), but has no image to check, no lengths and no steps.

use rolvenko_model::program::{Atom, Body, Case, Condition, Expression, Factor, Operand, Product, Relation, Sum, Term};
use rolvenko_model::Program;
use std::ffi::{c_char, c_int, c_void, CString};
use std::fmt::Write;
use std::path::Path;
use std::process::Command;

/// A compiled rule text: 0 and the next state in place, or a refusal's number.
pub type Scan = extern "C" fn(state: *mut i32, row: *const i32) -> c_int;

extern "C" {
    fn dlopen(file: *const c_char, flags: c_int) -> *mut c_void;
    fn dlsym(library: *mut c_void, name: *const c_char) -> *mut c_void;
}

/// Compiles one function for each program, in order.
pub fn compiled(programs: &[Program]) -> Vec<Scan> {
    let folder = Path::new(env!("CARGO_MANIFEST_DIR")).join("target");
    std::fs::create_dir_all(&folder).expect("a folder for the C source");
    let (source, library) = (folder.join("rules.c"), folder.join("librules.so"));
    let functions: String = programs.iter().enumerate().map(|(index, p)| Writer::default().function(index, p)).collect();
    std::fs::write(&source, format!("#include <stdint.h>\n{functions}")).expect("the C source is written");
    let gcc = Command::new("gcc").args(["-std=c11", "-O2", "-shared", "-fPIC"]).arg(&source).arg("-o").arg(&library).status();
    assert!(gcc.expect("gcc starts").success(), "gcc compiles {}", source.display());
    let path = CString::new(library.to_str().expect("a path")).expect("a path");
    let handle = unsafe { dlopen(path.as_ptr(), 2) };
    assert!(!handle.is_null(), "{} is loaded", library.display());
    let find = |index: usize| {
        let name = CString::new(format!("scan_{index}")).expect("a name");
        let function = unsafe { dlsym(handle, name.as_ptr()) };
        assert!(!function.is_null());
        // The function was compiled above with just this signature.
        unsafe { std::mem::transmute::<*mut c_void, Scan>(function) }
    };
    (0..programs.len()).map(find).collect()
}

/// Writes C, one numbered value a step.
#[derive(Default)]
struct Writer {
    code: String,
    values: usize,
}

impl Writer {
    fn function(mut self, index: usize, program: &Program) -> String {
        let count = program.names.len();
        for (id, name) in program.names.iter().enumerate() {
            self.line(&format!("if (s[{id}] < {} || s[{id}] > {}) return 18;", bound(name.low), bound(name.high)));
        }
        for (id, name) in program.names[..program.inputs].iter().enumerate() {
            self.line(&format!("if (row[{id}] < {} || row[{id}] > {}) return 13;", bound(name.low), bound(name.high)));
            self.line(&format!("c[{id}] = row[{id}];"));
        }
        for rule in &program.rules {
            let name = &program.names[rule.variable];
            let outside = |value: &str| format!("if ({value} < {} || {value} > {}) return 17;", bound(name.low), bound(name.high));
            match &rule.body {
                Body::Function(expression) => {
                    let value = self.expression(expression);
                    self.line(&outside(&value));
                    self.line(&format!("c[{}] = (int32_t){value};", rule.variable));
                }
                Body::Change { cases, .. } => self.change(rule.variable, cases, rule.rising, &outside),
            }
        }
        self.line(&format!("for (int i = 0; i < {count}; i++) s[i] = c[i];\n    return 0;"));
        let cells = count.max(1);
        format!("int scan_{index}(int32_t *restrict s, const int32_t *restrict row) {{\n    int32_t c[{cells}];\n{}}}\n", self.code)
    }

    fn line(&mut self, text: &str) {
        writeln!(self.code, "    {text}").expect("a string takes it");
    }

    /// Cases; those of a pair have its count of rising ones.
    fn change(&mut self, variable: usize, cases: &[Case], rising: Option<usize>, outside: &dyn Fn(&str) -> String) {
        self.values += 1;
        let picked = format!("p{}", self.values);
        self.line(&format!("int {picked} = 0; c[{variable}] = s[{variable}];"));
        for (index, case) in cases.iter().enumerate() {
            let (wrong, number) = match rising {
                None => ("==", 16),
                Some(count) if index < count => ("<=", 22),
                Some(_) => (">=", 22),
            };
            let condition = self.condition(&case.condition);
            self.line(&format!("if ({condition}) {{ if ({picked}) return 15; {picked} = 1;"));
            let value = self.expression(&case.expression);
            self.line(&format!("if ({value} {wrong} s[{variable}]) return {number};"));
            self.line(&outside(&value));
            self.line(&format!("c[{variable}] = (int32_t){value}; }}"));
        }
    }

    /// A new value of a C type, given by a C expression.
    fn value(&mut self, sort: &str, text: &str) -> String {
        self.values += 1;
        let name = format!("x{}", self.values);
        self.line(&format!("{sort} {name} = {text};"));
        name
    }

    /// "Both operands of `&` and `|` are worked out."
    fn condition(&mut self, condition: &Condition) -> String {
        let mut any = Vec::new();
        for all in &condition.any {
            let atoms: Vec<String> = all.iter().map(|atom| self.atom(atom)).collect();
            any.push(format!("({})", atoms.join(" & ")));
        }
        self.value("int", &any.join(" | "))
    }

    fn atom(&mut self, atom: &Atom) -> String {
        match atom {
            Atom::Compare { relation, left, right } => {
                let (left, right) = (self.expression(left), self.expression(right));
                let sign = match relation {
                    Relation::Equal => "==",
                    Relation::Unequal => "!=",
                    Relation::Less => "<",
                    Relation::LessEqual => "<=",
                    Relation::Greater => ">",
                    Relation::GreaterEqual => ">=",
                };
                format!("({left} {sign} {right})")
            }
            Atom::Bracket { negated, condition } => {
                let inner = self.condition(condition);
                format!("{}{inner}", if *negated { "!" } else { "" })
            }
        }
    }

    fn expression(&mut self, expression: &Expression) -> String {
        let mut left = self.term(&expression.first);
        for (sum, term) in &expression.rest {
            let right = self.term(term);
            let sign = if *sum == Sum::Add { "+" } else { "-" };
            left = self.fitting(&format!("{left} {sign} {right}"));
        }
        left
    }

    fn term(&mut self, term: &Term) -> String {
        let mut left = self.factor(&term.first);
        for (product, factor) in &term.rest {
            let right = self.factor(factor);
            let result = match product {
                Product::Multiply => format!("{left} * {right}"),
                Product::Divide => {
                    self.line(&format!("if ({right} == 0) return 14;"));
                    format!("{left} / {right}")
                }
                Product::Modulo => format!("{right} == 0 ? 0 : {left} % {right}"),
            };
            left = self.fitting(&result);
        }
        left
    }

    fn factor(&mut self, factor: &Factor) -> String {
        let value = match &factor.operand {
            Operand::Number(number) => self.value("int64_t", &number.to_string()),
            Operand::Current(id) => self.value("int64_t", &format!("c[{id}]")),
            Operand::Previous(id) => self.value("int64_t", &format!("s[{id}]")),
            Operand::Bracket(inner) => self.expression(inner),
        };
        if factor.negated {
            return self.fitting(&format!("-{value}"));
        }
        value
    }

    /// A result of an operation, refused by 14 outside 32 bits.
    fn fitting(&mut self, text: &str) -> String {
        let value = self.value("int64_t", text);
        self.line(&format!("if ({value} != (int32_t){value}) return 14;"));
        value
    }
}

fn bound(value: i32) -> String {
    if value == i32::MIN {
        return "INT32_MIN".to_owned();
    }
    value.to_string()
}
