//! Runs the original Rust of datafusion-common on cases.
//!
//! Reads one case per line from standard input and prints one answer per line.
//! oracle/FORMAT.md describes both. A case on which the Rust panics is answered
//! `PANIC`; a line that is no case stops the program with status 2, and so does
//! a case that reaches a shim without a body.

use std::any::Any;
use std::fmt::Write as _;
use std::io::{BufRead, Write};
use std::panic::{self, AssertUnwindSafe};
use std::sync::Arc;

use arrow::datatypes::{DataType, Field, FieldRef, Schema};
use datafusion_common::{
    Constraint, Constraints, DFSchema, DataFusionError, Dependency, FunctionalDependence,
    FunctionalDependencies, JoinType, SchemaError, TableReference,
    aggregate_functional_dependencies, get_required_group_by_exprs_indices,
    get_required_sort_exprs_indices, get_target_functional_dependencies, qualified_name,
};

// ---------------------------------------------------------------- reading

/// What is wrong with a line that is no case.
struct BadCase(String);

type Read<T> = Result<T, BadCase>;

fn bad<T>(what: &str, token: &str) -> Read<T> {
    Err(BadCase(format!("{what}: {token:?}")))
}

/// The tokens of one line, in order.
struct Tokens<'a> {
    rest: std::str::Split<'a, char>,
}

impl<'a> Tokens<'a> {
    fn new(line: &'a str) -> Self {
        Self {
            rest: line.split(' '),
        }
    }

    fn token(&mut self) -> Read<&'a str> {
        self.rest
            .next()
            .ok_or_else(|| BadCase("the line is too short".to_string()))
    }

    fn end(&mut self) -> Read<()> {
        match self.rest.next() {
            None => Ok(()),
            Some(t) => bad("tokens after the end", t),
        }
    }

    fn number(&mut self) -> Read<usize> {
        let t = self.token()?;
        t.parse().or_else(|_| bad("no number", t))
    }

    fn flag(&mut self) -> Read<bool> {
        match self.token()? {
            "0" => Ok(false),
            "1" => Ok(true),
            t => bad("no flag", t),
        }
    }

    /// A count and that many items.
    fn counted<T>(&mut self, item: impl Fn(&mut Self) -> Read<T>) -> Read<Vec<T>> {
        let count = self.number()?;
        (0..count).map(|_| item(self)).collect()
    }

    fn numbers(&mut self) -> Read<Vec<usize>> {
        self.counted(Self::number)
    }

    fn name(&mut self) -> Read<String> {
        let t = self.token()?;
        if let Some(plain) = t.strip_prefix('\'') {
            return Ok(plain.to_string());
        }
        let Some(hex) = t.strip_prefix('#') else {
            return bad("no name", t);
        };
        if hex.len() % 2 != 0 || !hex.is_ascii() {
            return bad("no hex name", t);
        }
        let bytes: Option<Vec<u8>> = (0..hex.len() / 2)
            .map(|i| u8::from_str_radix(&hex[2 * i..2 * i + 2], 16).ok())
            .collect();
        match bytes.map(String::from_utf8) {
            Some(Ok(name)) => Ok(name),
            _ => bad("no hex name", t),
        }
    }

    fn names(&mut self) -> Read<Vec<String>> {
        self.counted(Self::name)
    }

    fn reference(&mut self) -> Read<Option<TableReference>> {
        match self.token()? {
            "n" => Ok(None),
            "b" => Ok(Some(TableReference::bare(self.name()?))),
            "p" => Ok(Some(TableReference::partial(self.name()?, self.name()?))),
            "f" => Ok(Some(TableReference::full(
                self.name()?,
                self.name()?,
                self.name()?,
            ))),
            t => bad("no table reference", t),
        }
    }

    fn some_reference(&mut self) -> Read<TableReference> {
        self.reference()?
            .ok_or_else(|| BadCase("a table reference is wanted".to_string()))
    }

    fn column(&mut self) -> Read<(Option<TableReference>, FieldRef)> {
        let reference = self.reference()?;
        let name = self.name()?;
        let kind = match self.token()? {
            "N" => DataType::Int64,
            "C" => DataType::Utf8,
            t => return bad("no kind", t),
        };
        let nullable = self.flag()?;
        Ok((reference, Arc::new(Field::new(name, kind, nullable))))
    }

    /// Columns as a schema whose names are not checked.
    fn columns(&mut self) -> Read<DFSchema> {
        let (references, fields): (Vec<_>, Vec<_>) =
            self.counted(Self::column)?.into_iter().unzip();
        let unqualified = DFSchema::try_from(Arc::new(Schema::new(fields)));
        unqualified
            .and_then(|s| s.with_field_specific_qualified_schema(references))
            .or_else(|_| bad("no schema", ""))
    }

    /// Columns and dependencies. The dependencies must be valid.
    fn schema(&mut self) -> Read<DFSchema> {
        let columns = self.columns()?;
        let dependencies = self.dependencies()?;
        columns
            .with_functional_dependencies(dependencies)
            .or_else(|_| bad("a dependency lists a missing column", ""))
    }

    fn mode(&mut self) -> Read<Dependency> {
        match self.token()? {
            "S" => Ok(Dependency::Single),
            "M" => Ok(Dependency::Multi),
            t => bad("no mode", t),
        }
    }

    fn dependency(&mut self) -> Read<FunctionalDependence> {
        let mode = self.mode()?;
        let nullable = self.flag()?;
        let sources = self.numbers()?;
        let targets = self.numbers()?;
        Ok(FunctionalDependence::new(sources, targets, nullable).with_mode(mode))
    }

    fn dependencies(&mut self) -> Read<FunctionalDependencies> {
        Ok(FunctionalDependencies::new(
            self.counted(Self::dependency)?,
        ))
    }

    fn key(&mut self) -> Read<Constraint> {
        match self.token()? {
            "P" => Ok(Constraint::PrimaryKey(self.numbers()?)),
            "U" => Ok(Constraint::Unique(self.numbers()?)),
            t => bad("no key", t),
        }
    }

    fn keys(&mut self) -> Read<Constraints> {
        Ok(Constraints::new_unverified(self.counted(Self::key)?))
    }

    fn optional_keys(&mut self) -> Read<Option<Constraints>> {
        match self.token()? {
            "none" => Ok(None),
            "some" => Ok(Some(self.keys()?)),
            t => bad("neither none nor some", t),
        }
    }

    fn join_type(&mut self) -> Read<JoinType> {
        let t = self.token()?;
        JOIN_TYPES
            .into_iter()
            .find(|j| j.to_string() == t)
            .map_or_else(|| bad("no join type", t), Ok)
    }
}

const JOIN_TYPES: [JoinType; 10] = [
    JoinType::Inner,
    JoinType::Left,
    JoinType::Right,
    JoinType::Full,
    JoinType::LeftSemi,
    JoinType::RightSemi,
    JoinType::LeftAnti,
    JoinType::RightAnti,
    JoinType::LeftMark,
    JoinType::RightMark,
];

// --------------------------------------------------------------- printing

/// One answer line, put together token by token.
#[derive(Default)]
struct Answer {
    line: String,
}

impl Answer {
    fn word(mut self, token: &str) -> Self {
        if !self.line.is_empty() {
            self.line.push(' ');
        }
        self.line.push_str(token);
        self
    }

    fn number(self, n: usize) -> Self {
        self.word(&n.to_string())
    }

    fn flag(self, f: bool) -> Self {
        self.word(if f { "1" } else { "0" })
    }

    fn numbers(self, list: &[usize]) -> Self {
        let counted = self.number(list.len());
        list.iter().fold(counted, |a, n| a.number(*n))
    }

    fn name(self, name: &str) -> Self {
        let mut token = String::new();
        if name.bytes().all(|b| (0x21..=0x7e).contains(&b)) {
            token.push('\'');
            token.push_str(name);
        } else {
            token.push('#');
            for b in name.bytes() {
                let _ = write!(token, "{b:02x}");
            }
        }
        self.word(&token)
    }

    fn reference(self, reference: Option<&TableReference>) -> Self {
        match reference {
            None => self.word("n"),
            Some(TableReference::Bare { table }) => self.word("b").name(table),
            Some(TableReference::Partial { schema, table }) => {
                self.word("p").name(schema).name(table)
            }
            Some(TableReference::Full {
                catalog,
                schema,
                table,
            }) => self.word("f").name(catalog).name(schema).name(table),
        }
    }

    fn column(self, reference: Option<&TableReference>, field: &Field) -> Self {
        let kind = match field.data_type() {
            DataType::Int64 => "N",
            DataType::Utf8 => "C",
            other => unreachable!("no case makes a column of type {other}"),
        };
        self.reference(reference)
            .name(field.name())
            .word(kind)
            .flag(field.is_nullable())
    }

    fn schema(self, schema: &DFSchema) -> Self {
        let counted = self.number(schema.fields().len());
        schema
            .iter()
            .fold(counted, |a, (reference, field)| a.column(reference, field))
            .dependencies(schema.functional_dependencies())
    }

    fn mode(self, mode: Dependency) -> Self {
        self.word(match mode {
            Dependency::Single => "S",
            Dependency::Multi => "M",
        })
    }

    fn dependencies(self, dependencies: &FunctionalDependencies) -> Self {
        let counted = self.number(dependencies.len());
        dependencies.iter().fold(counted, |a, d| {
            a.mode(d.mode)
                .flag(d.nullable)
                .numbers(&d.source_indices)
                .numbers(&d.target_indices)
        })
    }

    fn keys(self, keys: &Constraints) -> Self {
        let counted = self.number(keys.len());
        keys.iter().fold(counted, |a, key| match key {
            Constraint::PrimaryKey(columns) => a.word("P").numbers(columns),
            Constraint::Unique(columns) => a.word("U").numbers(columns),
        })
    }

    fn optional_numbers(self, list: Option<&[usize]>) -> Self {
        match list {
            None => self.word("none"),
            Some(list) => self.word("some").numbers(list),
        }
    }

    fn error(self, error: &DataFusionError) -> Self {
        let err = self.word("err");
        match error {
            DataFusionError::Plan(_) => err.word("Plan"),
            DataFusionError::SchemaError(e, _) => match e.as_ref() {
                SchemaError::DuplicateQualifiedField { qualifier, name } => err
                    .word("DuplicateQualifiedField")
                    .reference(Some(qualifier))
                    .name(name),
                SchemaError::DuplicateUnqualifiedField { name } => {
                    err.word("DuplicateUnqualifiedField").name(name)
                }
                SchemaError::AmbiguousReference { field } => err
                    .word("AmbiguousReference")
                    .reference(field.relation.as_ref())
                    .name(&field.name),
                SchemaError::FieldNotFound { field, .. } => err
                    .word("FieldNotFound")
                    .reference(field.relation.as_ref())
                    .name(&field.name),
            },
            other => unreachable!("no carried function gives {other:?}"),
        }
    }
}

// ---------------------------------------------------------------- running

/// A case that has been read: run, it calls the original once and answers.
type Run = Box<dyn FnOnce() -> Answer>;

fn answer() -> Answer {
    Answer::default()
}

fn run(f: impl FnOnce() -> Answer + 'static) -> Read<Run> {
    Ok(Box::new(f))
}

fn case(line: &str) -> Read<Run> {
    let mut tokens = Tokens::new(line);
    let t = &mut tokens;
    let run = match t.token()? {
        name @ ("constraints_project"
        | "new_from_constraints"
        | "is_valid"
        | "add_offset"
        | "with_dependency"
        | "project_functional_dependencies"
        | "fd_join"
        | "extend_target_indices") => dependency_case(name, t)?,
        name @ ("aggregate_functional_dependencies"
        | "get_target_functional_dependencies"
        | "get_required_group_by_exprs_indices"
        | "get_required_sort_exprs_indices") => names_case(name, t)?,
        name @ ("swap" | "is_outer" | "on_lr_is_preserved") => join_type_case(name, t)?,
        name => schema_case(name, t)?,
    };
    tokens.end()?;
    Ok(run)
}

fn dependency_case(name: &str, t: &mut Tokens<'_>) -> Read<Run> {
    match name {
        "constraints_project" => {
            let (keys, columns) = (t.keys()?, t.numbers()?);
            run(move || match keys.project(&columns) {
                None => answer().word("none"),
                Some(kept) => answer().word("some").keys(&kept),
            })
        }
        "new_from_constraints" => {
            let (keys, width) = (t.optional_keys()?, t.number()?);
            run(move || {
                let made =
                    FunctionalDependencies::new_from_constraints(keys.as_ref(), width);
                answer().dependencies(&made)
            })
        }
        "is_valid" => {
            let (set, width) = (t.dependencies()?, t.number()?);
            run(move || answer().flag(set.is_valid(width)))
        }
        "add_offset" => {
            let (mut set, offset) = (t.dependencies()?, t.number()?);
            run(move || {
                set.add_offset(offset);
                answer().dependencies(&set)
            })
        }
        "with_dependency" => {
            let (set, mode) = (t.dependencies()?, t.mode()?);
            run(move || answer().dependencies(&set.with_dependency(mode)))
        }
        "project_functional_dependencies" => {
            let (set, columns, width) = (t.dependencies()?, t.numbers()?, t.number()?);
            run(move || {
                answer()
                    .dependencies(&set.project_functional_dependencies(&columns, width))
            })
        }
        "fd_join" => {
            let join_type = t.join_type()?;
            let (left, right) = (t.dependencies()?, t.dependencies()?);
            let left_width = t.number()?;
            run(move || answer().dependencies(&left.join(&right, &join_type, left_width)))
        }
        "extend_target_indices" => {
            let (mut set, width) = (t.dependencies()?, t.number()?);
            run(move || {
                set.extend_target_indices(width);
                answer().dependencies(&set)
            })
        }
        _ => bad("no such call", name),
    }
}

fn names_case(name: &str, t: &mut Tokens<'_>) -> Read<Run> {
    let schema = t.schema()?;
    let names = t.names()?;
    match name {
        "aggregate_functional_dependencies" => {
            let output = t.columns()?;
            run(move || {
                let set = aggregate_functional_dependencies(&schema, &names, &output);
                answer().dependencies(&set)
            })
        }
        "get_target_functional_dependencies" => run(move || {
            let found = get_target_functional_dependencies(&schema, &names);
            answer().optional_numbers(found.as_deref())
        }),
        "get_required_group_by_exprs_indices" => run(move || {
            let found = get_required_group_by_exprs_indices(&schema, &names);
            answer().optional_numbers(found.as_deref())
        }),
        "get_required_sort_exprs_indices" => run(move || {
            answer().numbers(&get_required_sort_exprs_indices(&schema, &names))
        }),
        _ => bad("no such call", name),
    }
}

fn join_type_case(name: &str, t: &mut Tokens<'_>) -> Read<Run> {
    let join_type = t.join_type()?;
    match name {
        "swap" => run(move || answer().word(&join_type.swap().to_string())),
        "is_outer" => run(move || answer().flag(join_type.is_outer())),
        "on_lr_is_preserved" => run(move || {
            let (left, right) = join_type.on_lr_is_preserved();
            answer().flag(left).flag(right)
        }),
        _ => bad("no such call", name),
    }
}

fn schema_case(name: &str, t: &mut Tokens<'_>) -> Read<Run> {
    match name {
        "check_names" => {
            let columns = t.columns()?;
            run(move || match columns.check_names() {
                Ok(()) => answer().word("ok"),
                Err(e) => answer().error(&e),
            })
        }
        "with_functional_dependencies" => {
            let (columns, set) = (t.columns()?, t.dependencies()?);
            run(move || match columns.with_functional_dependencies(set) {
                Ok(schema) => answer().word("ok").schema(&schema),
                Err(e) => answer().error(&e),
            })
        }
        "schema_join" => {
            let (left, right) = (t.schema()?, t.schema()?);
            run(move || match left.join(&right) {
                Ok(schema) => answer().word("ok").schema(&schema),
                Err(e) => answer().error(&e),
            })
        }
        "merge" => {
            let (mut schema, other) = (t.schema()?, t.schema()?);
            run(move || {
                schema.merge(&other);
                answer().schema(&schema)
            })
        }
        "index_of_column_by_name" => {
            let (columns, reference, name) = (t.columns()?, t.reference()?, t.name()?);
            run(move || {
                match columns.index_of_column_by_name(reference.as_ref(), &name) {
                    None => answer().word("none"),
                    Some(at) => answer().word("some").number(at),
                }
            })
        }
        "qualified_field_with_unqualified_name" => {
            let (columns, name) = (t.columns()?, t.name()?);
            run(move || match columns.qualified_field_with_unqualified_name(&name) {
                Ok((reference, field)) => answer().word("ok").column(reference, field),
                Err(e) => answer().error(&e),
            })
        }
        "qualified_name" => {
            let (reference, name) = (t.reference()?, t.name()?);
            run(move || answer().name(&qualified_name(reference.as_ref(), &name)))
        }
        "resolved_eq" => {
            let (a, b) = (t.some_reference()?, t.some_reference()?);
            run(move || answer().flag(a.resolved_eq(&b)))
        }
        "reference_cmp" => {
            let (a, b) = (t.some_reference()?, t.some_reference()?);
            run(move || answer().word(&format!("{:?}", a.cmp(&b))))
        }
        _ => bad("no such call", name),
    }
}

/// Whether a panic came from an `unimplemented!("shim: ..")`.
fn is_from_shim(payload: &(dyn Any + Send)) -> bool {
    let text = match payload.downcast_ref::<String>() {
        Some(text) => text.as_str(),
        None => payload.downcast_ref::<&str>().copied().unwrap_or(""),
    };
    text.contains("shim:")
}

fn stop(mut out: impl Write, at: usize, what: &str) -> std::io::Result<()> {
    out.flush()?;
    eprintln!("line {}: {what}", at + 1);
    std::process::exit(2)
}

fn main() -> std::io::Result<()> {
    panic::set_hook(Box::new(|_| {}));
    let mut out = std::io::BufWriter::new(std::io::stdout().lock());
    for (at, line) in std::io::stdin().lock().lines().enumerate() {
        let line = line?;
        match case(&line) {
            Ok(run) => match panic::catch_unwind(AssertUnwindSafe(run)) {
                Ok(answer) => writeln!(out, "{}", answer.line)?,
                Err(payload) if is_from_shim(payload.as_ref()) => {
                    return stop(out, at, "a shim without a body was reached");
                }
                Err(_) => writeln!(out, "PANIC")?,
            },
            Err(BadCase(what)) => return stop(out, at, &what),
        }
    }
    out.flush()
}
