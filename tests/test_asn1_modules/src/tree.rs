//! A syntax tree as lines of text.

use asn1_modules::{
    Assignment, AssignmentKind, Exports, Import, Kind, Module, ModuleError, NamedValue, Node, Number, Presence, Span,
    Syntax, Tag, TagNumber, Tagging, ValueKind, read_modules,
};
use std::alloc::{AllocError, Global};

/// The lines of the tree of a text, or of its error.
pub fn tree_of(alloc: Global, text: &str) -> Result<String, AllocError> {
    match read_modules(alloc, text.as_bytes()) {
        Ok(syntax) => lines_of(alloc, &syntax),
        Err(error) => error_line(alloc, error),
    }
}

/// The line of an error.
fn error_line(alloc: Global, error: ModuleError) -> Result<String, AllocError> {
    format!(in alloc; "{error}\n")
}

/// The lines of a tree.
fn lines_of(alloc: Global, syntax: &Syntax<'_>) -> Result<String, AllocError> {
    let mut lines = String::new(alloc);
    for (index, module) in syntax.modules.iter().enumerate() {
        push_module(alloc, &mut lines, syntax, module)?;
        push_imports(&mut lines, syntax, index)?;
        push_assignments(alloc, &mut lines, syntax, index)?;
    }
    Ok(lines)
}

fn push_module(
    alloc: Global,
    lines: &mut String,
    syntax: &Syntax<'_>,
    module: &Module<'_>,
) -> Result<(), AllocError> {
    push_octets(lines, module.name)?;
    push_span(lines, syntax, module.identifier)?;
    let tags = module.tags;
    lines.push_str(&format!(in alloc; " {tags:?}")?)?;
    if module.extensible {
        lines.push_str(" extensible")?;
    }
    if let Exports::Names(names) = module.exports {
        lines.push_str(" exports")?;
        push_span(lines, syntax, names)?;
    }
    lines.push_str("\n")
}

fn push_imports(lines: &mut String, syntax: &Syntax<'_>, module: usize) -> Result<(), AllocError> {
    for import in &syntax.imports {
        if import.module == module {
            push_import(lines, syntax, import)?;
        }
    }
    Ok(())
}

fn push_import(
    lines: &mut String,
    syntax: &Syntax<'_>,
    import: &Import<'_>,
) -> Result<(), AllocError> {
    lines.push_str("import ")?;
    push_octets(lines, import.name)?;
    if let Some(source) = syntax.sources.get(import.source) {
        lines.push_str(" from ")?;
        push_octets(lines, source.name)?;
        push_span(lines, syntax, source.identifier)?;
    }
    lines.push_str("\n")
}

fn push_assignments(
    alloc: Global,
    lines: &mut String,
    syntax: &Syntax<'_>,
    module: usize,
) -> Result<(), AllocError> {
    for assignment in &syntax.assignments {
        if assignment.module == module {
            push_assignment(alloc, lines, syntax, assignment)?;
        }
    }
    Ok(())
}

fn push_assignment(
    alloc: Global,
    lines: &mut String,
    syntax: &Syntax<'_>,
    assignment: &Assignment<'_>,
) -> Result<(), AllocError> {
    push_octets(lines, assignment.name)?;
    push_span(lines, syntax, assignment.parameters)?;
    lines.push_str(" =")?;
    match assignment.kind {
        AssignmentKind::Type(node) => {
            lines.push_str(" type\n")?;
            push_nodes(alloc, lines, syntax, node)
        }
        AssignmentKind::Value(node, kind, span) => {
            push_value(lines, syntax, kind, span)?;
            push_nodes(alloc, lines, syntax, node)
        }
        AssignmentKind::Set(node, span) => {
            lines.push_str(" set")?;
            push_line(lines, syntax, span)?;
            push_nodes(alloc, lines, syntax, node)
        }
        AssignmentKind::Class(span) => {
            lines.push_str(" class")?;
            push_line(lines, syntax, span)
        }
        AssignmentKind::Macro(span) => {
            lines.push_str(" macro")?;
            push_line(lines, syntax, span)
        }
    }
}

fn push_value(
    lines: &mut String,
    syntax: &Syntax<'_>,
    kind: ValueKind,
    span: Span,
) -> Result<(), AllocError> {
    match kind {
        ValueKind::Arcs(first, count) => {
            lines.push_str(" identifier")?;
            push_arcs(lines, syntax, first, count)?;
            lines.push_str("\n")
        }
        ValueKind::Number => {
            lines.push_str(" number")?;
            push_line(lines, syntax, span)
        }
        ValueKind::Reference => {
            lines.push_str(" reference")?;
            push_line(lines, syntax, span)
        }
        ValueKind::Text => {
            lines.push_str(" text")?;
            push_line(lines, syntax, span)
        }
    }
}

fn push_arcs(
    lines: &mut String,
    syntax: &Syntax<'_>,
    first: usize,
    count: usize,
) -> Result<(), AllocError> {
    for arc in syntax.arcs.iter().skip(first).take(count) {
        lines.push_str(" ")?;
        push_octets(lines, arc.name)?;
        if let Some(number) = arc.number {
            lines.push_str("#")?;
            push_number(lines, number)?;
        }
    }
    Ok(())
}

/// Adds a node and what is inside it.
fn push_nodes(alloc: Global, lines: &mut String, syntax: &Syntax<'_>, root: usize) -> Result<(), AllocError> {
    for (index, node) in syntax.nodes.iter().enumerate().skip(root) {
        if index > root && node.depth == 0 {
            return Ok(());
        }
        push_node(alloc, lines, syntax, node)?;
    }
    Ok(())
}

fn push_node(alloc: Global, lines: &mut String, syntax: &Syntax<'_>, node: &Node<'_>) -> Result<(), AllocError> {
    for _ in 0..node.depth {
        lines.push_str("  ")?;
    }
    lines.push_str("  ")?;
    if !node.name.is_empty() {
        push_octets(lines, node.name)?;
        lines.push_str(" ")?;
    }
    push_kind(alloc, lines, syntax, node.kind)?;
    push_span(lines, syntax, node.constraint)?;
    match node.presence {
        Presence::Required => {}
        Presence::Optional => lines.push_str(" optional")?,
        Presence::Default(span) => {
            lines.push_str(" default")?;
            push_span(lines, syntax, span)?;
        }
    }
    lines.push_str("\n")
}

fn push_kind(alloc: Global, lines: &mut String, syntax: &Syntax<'_>, kind: Kind<'_>) -> Result<(), AllocError> {
    match kind {
        Kind::Tagged(tag, tagging) => push_tag(alloc, lines, tag, tagging),
        Kind::Selection(name) => push_words(lines, "selection ", name),
        Kind::Any(name) => push_words(lines, "any ", name),
        Kind::InstanceOf(name) => push_words(lines, "instance of ", name),
        Kind::Reference {
            module,
            name,
            parameters,
        } => {
            push_words(lines, "", module)?;
            if !module.is_empty() {
                lines.push_str(".")?;
            }
            push_octets(lines, name)?;
            push_span(lines, syntax, parameters)
        }
        Kind::ClassField(span) => {
            lines.push_str("field")?;
            push_span(lines, syntax, span)
        }
        Kind::Extension(span) => {
            lines.push_str("...")?;
            push_span(lines, syntax, span)
        }
        Kind::Named(value) => push_named(lines, value),
        Kind::Simple(simple) => lines.push_str(&format!(in alloc; "{simple:?}")?),
        _ => lines.push_str(&format!(in alloc; "{kind:?}")?),
    }
}

fn push_tag(alloc: Global, lines: &mut String, tag: Tag<'_>, tagging: Tagging) -> Result<(), AllocError> {
    let class = tag.class;
    lines.push_str(&format!(in alloc; "[{class:?} ")?)?;
    match tag.number {
        TagNumber::Number(number) => lines.push_str(&format!(in alloc; "{number}")?)?,
        TagNumber::Reference(name) => push_octets(lines, name)?,
    }
    lines.push_str(&format!(in alloc; "] {tagging:?}")?)
}

fn push_named(lines: &mut String, value: NamedValue<'_>) -> Result<(), AllocError> {
    match value {
        NamedValue::Unnumbered => lines.push_str("item"),
        NamedValue::Number(number) => push_number(lines, number),
        NamedValue::Reference(name) => push_octets(lines, name),
    }
}

fn push_number(lines: &mut String, number: Number<'_>) -> Result<(), AllocError> {
    if number.negative {
        lines.push_str("-")?;
    }
    push_octets(lines, number.digits)
}

fn push_words(lines: &mut String, words: &str, name: &[u8]) -> Result<(), AllocError> {
    lines.push_str(words)?;
    push_octets(lines, name)
}

/// Adds a part of the text and the end of a line.
fn push_line(lines: &mut String, syntax: &Syntax<'_>, span: Span) -> Result<(), AllocError> {
    push_span(lines, syntax, span)?;
    lines.push_str("\n")
}

/// Adds a part of the text, if there is any.
fn push_span(lines: &mut String, syntax: &Syntax<'_>, span: Span) -> Result<(), AllocError> {
    if span.is_empty() {
        return Ok(());
    }
    lines.push_str(" ")?;
    push_octets(lines, span.of(syntax.text))
}

/// Adds octets that are characters of ASCII.
fn push_octets(lines: &mut String, octets: &[u8]) -> Result<(), AllocError> {
    for octet in octets {
        lines.push(char::from(*octet))?;
    }
    Ok(())
}
