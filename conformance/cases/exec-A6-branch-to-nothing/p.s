main: b far
