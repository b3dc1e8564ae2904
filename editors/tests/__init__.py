"""The tests of cool-lsp and cool-dap, by subject. Each is a function of a folder of its own and the arguments of the command line."""
