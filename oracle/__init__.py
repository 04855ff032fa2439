"""The models that the project is compared with, written apart from the crates. README.md says which module has what. Standard library only."""
