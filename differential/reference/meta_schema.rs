//! Stand-in: `pso` names this type in functions that are not compared.
#[derive(Debug, Clone, PartialEq)]
pub struct HashSite {
    pub offset: usize,
    pub value: u32,
}
