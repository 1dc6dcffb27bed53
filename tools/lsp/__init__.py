"""The language server of bundle texts, which tools/resb-lsp runs. docs/EDITORS.md says how editors start it."""
