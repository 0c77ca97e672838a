//! What of the readers needs code, and no rows: headers, types by name, and other names of the same types.

#[cfg(test)]
mod contents;
#[cfg(test)]
mod headers;
#[cfg(test)]
mod names;
#[cfg(test)]
mod numbers;
#[cfg(test)]
mod octets_of_texts;
mod type_names;
