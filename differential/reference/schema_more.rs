
/// Appended to the copy: `from_pso` is private.
impl Schema {
    pub fn from_pso_bytes(data: &[u8]) -> Result<Schema> {
        Schema::from_pso(data)
    }
}
