//! Compiled as a child module of the original dependency.rs, where its private
//! functions are in sight.

use super::*;

impl DependencyAnalyzer {
    pub(crate) fn prepare(&mut self, current: Option<String>, edges: Vec<Dependency>) {
        self.current_type_name = current;
        for edge in edges {
            self.graph.add_dependency(edge);
        }
    }

    /// Runs the validator of one definition and takes out what it found.
    pub(crate) fn check(
        &mut self,
        definition: &TypeDef,
        all: &[TypeDef],
    ) -> Vec<LayoutConstraintViolation> {
        let name = &definition.name;
        match &definition.kind {
            TypeKind::Enum(item) => self.validate_enum_tag_constraints(name, item, all),
            TypeKind::Array(item) => self.validate_array_size_constraints(name, item, all),
            TypeKind::Struct(item) => self.validate_struct_field_constraints(name, item, all),
            _ => {}
        }
        std::mem::take(&mut self.graph.layout_violations)
    }

    pub(crate) fn chain(&self, from: &str, to: &str) -> Option<Vec<String>> {
        self.find_layout_dependency_chain(from, to, &[])
    }
}
