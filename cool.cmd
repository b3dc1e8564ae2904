@rem The command `cool` for Windows: runs the program with the given arguments (docs/release.md).
@"%~dp0release\cool.exe" %*
