@rem The command `cool-explain` for Windows: runs the program with the given arguments (docs/explain.md).
@"%~dp0release\cool_explain.exe" %*
