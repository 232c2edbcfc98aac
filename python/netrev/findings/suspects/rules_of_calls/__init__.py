"""The rules about Go's calls and about NAME.where. These rules come after the other rules, and their uncertain findings
begin with "perhaps"."""
