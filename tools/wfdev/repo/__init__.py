"""The repository as the scripts know it: folders, crates, sources, programs and generated pages."""
