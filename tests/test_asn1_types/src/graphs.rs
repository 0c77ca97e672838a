//! Types of modules beside those of der_known, as graphs: names, tags, OPTIONAL, alternatives, items, and what
//! identifiers select. Types refer to each other in cycles, so two types are compared once.

use crate::titles::Titles;
use crate::words::{tag_text, type_text, word_of};
use asn1_types::Types;
use der_schema::KnownType;
use der_schema::schema::{Component, Inside, Secrecy, Selection, Type};
use std::alloc::{AllocError, Global};
use std::collections::BTreeSet;

/// What was compared, and what differs.
#[derive(Drop)]
pub struct Comparison<'a> {
    alloc: Global,
    ours: Types,
    theirs: &'a [&'static Component],
    titles: Titles,
    /// The pairs of types that were compared.
    compared: BTreeSet<String>,
    /// Where something differs, and how: a place, ours, and theirs.
    pub found: BTreeSet<String>,
}

/// Where a comparison is.
#[derive(Clone, Copy)]
struct Spot<'p> {
    /// The type or the component around it.
    owner: &'p str,
    /// The component, with `.!` for what is inside an explicit tag, and `.*` for an item.
    step: &'p str,
}

impl<'a> Comparison<'a> {
    /// A comparison of types of modules with others, which refer to these by index.
    pub fn new(alloc: Global, ours: Types, theirs: &'a [&'static Component]) -> Result<Comparison<'a>, AllocError> {
        Ok(Comparison {
            alloc,
            ours,
            theirs,
            titles: Titles::of(alloc, ours)?,
            compared: BTreeSet::new(alloc),
            found: BTreeSet::new(alloc),
        })
    }

    /// Compares each type that has a name in a module. Returns how many there are.
    pub fn compare(&mut self, name: &str, theirs: &Component) -> Result<usize, AllocError> {
        let mut count: usize = 0;
        for module in self.ours.modules {
            if let Some(ours) = module.types.iter().find(|it| it.name == name) {
                let spot = Spot { owner: module.name, step: name };
                self.component(spot, &component_of(ours), theirs)?;
                count = count.saturating_add(1);
            }
        }
        Ok(count)
    }

    fn differ(&mut self, spot: Spot<'_>, ours: &str, theirs: &str) -> Result<(), AllocError> {
        let Spot { owner, step } = spot;
        let dot = if step.is_empty() { "" } else { "." };
        let text = format!(in self.alloc; "{owner}{dot}{step}: {ours} | {theirs}")?;
        self.found.insert(text)?;
        Ok(())
    }

    fn differ_if(&mut self, differs: bool, spot: Spot<'_>, ours: &str, theirs: &str) -> Result<(), AllocError> {
        if differs {
            return self.differ(spot, ours, theirs);
        }
        Ok(())
    }

    fn component(&mut self, spot: Spot<'_>, ours: &Component, theirs: &Component) -> Result<(), AllocError> {
        let (one, other) = (name_of(ours, self.ours.types), name_of(theirs, self.theirs));
        if !one.eq_ignore_ascii_case(other) {
            let one = format!(in self.alloc; "name {one}")?;
            let other = format!(in self.alloc; "name {other}")?;
            self.differ(spot, one.trim_ascii(), other.trim_ascii())?;
        }
        self.unnamed(spot, ours, theirs)
    }

    /// Compares two components, but for their names.
    fn unnamed(&mut self, spot: Spot<'_>, ours: &Component, theirs: &Component) -> Result<(), AllocError> {
        let (one, other) = (presence_of(ours), presence_of(theirs));
        self.differ_if(one != other, spot, one, other)?;
        self.kinds(spot, ours.kind, theirs.kind)
    }

    fn kinds(&mut self, spot: Spot<'_>, ours: Type, theirs: Type) -> Result<(), AllocError> {
        if self.is_compared(ours, theirs)? {
            return Ok(());
        }
        let (one, other) = (resolved(ours, self.ours.types), resolved(theirs, self.theirs));
        let title = self.titles.title_of(self.alloc, one)?;
        let spot = match title {
            Some(owner) => Spot { owner, step: "" },
            None => spot,
        };
        match (one, other) {
            (Type::Any, Type::Any) | (Type::Selected, Type::Selected) => Ok(()),
            (Type::Choice(one), Type::Choice(other)) => self.alternatives(spot, one, other),
            (Type::Choice([one]), _) => {
                self.differ(spot, "choice", "its alternative")?;
                self.kinds(spot, one.kind, other)
            }
            (Type::Tagged(_, _, _, inside), Type::Tagged(_, _, _, other_inside)) => {
                let (one, other) = (tag_text(self.alloc, one)?, tag_text(self.alloc, other)?);
                self.differ_if(one != other, spot, &one, &other)?;
                self.insides(spot, inside, other_inside)
            }
            _ => {
                let (ours, theirs) = (type_text(self.alloc, one)?, type_text(self.alloc, other)?);
                self.differ(spot, &ours, &theirs)?;
                self.all_selected(spot, Inside::Free, inside_of(other))
            }
        }
    }

    /// Whether two types were compared before. From then on they are.
    fn is_compared(&mut self, ours: Type, theirs: Type) -> Result<bool, AllocError> {
        let one = self.titles.key_of(self.alloc, ours, self.ours.types)?;
        match theirs {
            Type::Numbered(other) if !one.is_empty() => {
                Ok(!self.compared.insert(format!(in self.alloc; "{one} {other}")?)?)
            }
            _ => Ok(false),
        }
    }

    /// Compares alternatives by their tags. One may have no name in der_known, so that elements have that of the
    /// component.
    fn alternatives(&mut self, spot: Spot<'_>, ours: &[Component], theirs: &[Component]) -> Result<(), AllocError> {
        for one in ours {
            let spot_of_one = below(spot, one.name);
            match theirs.iter().find(|it| have_one_tag(it.kind, one.kind)) {
                Some(other) if other.name.is_empty() => {
                    self.differ(spot, "named", "no names")?;
                    self.unnamed(spot_of_one, one, other)?;
                }
                Some(other) => self.component(spot_of_one, one, other)?,
                None => self.differ(spot_of_one, "here", "missing")?,
            }
        }
        for other in theirs {
            let missing = !ours.iter().any(|it| have_one_tag(it.kind, other.kind));
            let tag = tag_text(self.alloc, other.kind)?;
            let name = if other.name.is_empty() { tag.as_str() } else { other.name };
            self.differ_if(missing, spot, "missing", name)?;
        }
        Ok(())
    }

    fn insides(&mut self, spot: Spot<'_>, ours: Inside, theirs: Inside) -> Result<(), AllocError> {
        let (one, other) = (word_of(ours), word_of(theirs));
        self.differ_if(one != other, spot, one, other)?;
        match (components_of(ours), components_of(theirs)) {
            (Some([one]), Some([other])) if one.name.is_empty() => {
                let step = format!(in self.alloc; "{}.!", spot.step)?;
                self.component(Spot { step: &step, ..spot }, one, other)?;
            }
            (Some(one), Some(other)) => self.lists(spot, one, other)?,
            _ => {}
        }
        if let (Inside::Each(one), Inside::Each(other)) = (ours, theirs) {
            let step = format!(in self.alloc; "{}.*", spot.step)?;
            self.component(Spot { step: &step, ..spot }, one, other)?;
        }
        self.all_selected(spot, ours, theirs)
    }

    /// Compares components one after another, or by their names if there are more on one side.
    fn lists(&mut self, spot: Spot<'_>, ours: &[Component], theirs: &[Component]) -> Result<(), AllocError> {
        let same = ours.len() == theirs.len();
        for (index, one) in ours.iter().enumerate() {
            let by_name = theirs.iter().find(|it| it.name == one.name);
            match if same { theirs.get(index) } else { by_name } {
                Some(other) => self.component(below(spot, one.name), one, other)?,
                None => self.differ(below(spot, one.name), "here", "missing")?,
            }
        }
        for other in theirs {
            let missing = !same && !ours.iter().any(|it| it.name == other.name);
            self.differ_if(missing, spot, "missing", other.name)?;
        }
        Ok(())
    }

    /// Compares what identifiers select.
    fn all_selected(&mut self, spot: Spot<'_>, ours: Inside, theirs: Inside) -> Result<(), AllocError> {
        let (ours, theirs) = (selections_of(ours), selections_of(theirs));
        for selection in theirs {
            for other in selection.components {
                let spot = Spot { step: name_of(other, self.theirs), ..spot };
                match selected_in(ours, selection.identifier) {
                    Some(one) if spot.step.is_empty() => self.unnamed(spot, one, other)?,
                    Some(one) => self.component(spot, one, other)?,
                    None => self.differ(spot, "missing", "selected")?,
                }
            }
        }
        for selection in ours {
            for one in selection.components {
                let spot = Spot { step: name_of(one, self.ours.types), ..spot };
                let missing = !theirs.is_empty() && selected_in(theirs, selection.identifier).is_none();
                self.differ_if(missing, spot, "selected", "missing")?;
            }
        }
        Ok(())
    }
}

/// A component of a type, with its name.
fn component_of(one: &KnownType) -> Component {
    Component { name: one.name, optional: false, secrecy: Secrecy::Public, kind: one.kind, words: None }
}

/// The spot of a component.
fn below<'p>(spot: Spot<'p>, name: &'p str) -> Spot<'p> {
    let owner = if spot.step.is_empty() { spot.owner } else { spot.step };
    Spot { owner, step: name }
}

/// The name that elements of a component have.
fn name_of(component: &Component, types: &[&'static Component]) -> &'static str {
    match component.kind {
        Type::Numbered(index) if component.name.is_empty() => match types.get(index) {
            Some(component) => component.name,
            None => "",
        },
        _ => component.name,
    }
}

fn presence_of(component: &Component) -> &'static str {
    if component.optional { "optional" } else { "mandatory" }
}

/// The type that a type refers to.
pub fn resolved(kind: Type, types: &[&'static Component]) -> Type {
    match kind {
        Type::Numbered(index) => match types.get(index) {
            Some(component) => component.kind,
            None => Type::Any,
        },
        _ => kind,
    }
}

/// Whether two types have the same tag.
pub fn have_one_tag(one: Type, other: Type) -> bool {
    match (one, other) {
        (Type::Tagged(class, number, ..), Type::Tagged(other_class, other_number, ..)) => {
            class == other_class && number == other_number
        }
        _ => false,
    }
}

fn inside_of(kind: Type) -> Inside {
    match kind {
        Type::Tagged(_, _, _, inside) => inside,
        _ => Inside::Free,
    }
}

fn components_of(inside: Inside) -> Option<&'static [Component]> {
    match inside {
        Inside::Components(list) | Inside::Members(list) | Inside::Holds(list) | Inside::Begins(list, _) => Some(list),
        _ => None,
    }
}

/// What an identifier selects in a table.
fn selected_in(table: &'static [Selection], identifier: &[u8]) -> Option<&'static Component> {
    table.iter().find(|it| it.identifier == identifier).and_then(|it| it.components.first())
}

fn selections_of(inside: Inside) -> &'static [Selection] {
    match inside {
        Inside::Selects(table) | Inside::Begins(_, table) => table,
        _ => &[],
    }
}
