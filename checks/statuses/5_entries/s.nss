void F() { AssignCommand(OBJECT_SELF, F()); } void main() { F(); }
