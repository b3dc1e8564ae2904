__start: j 4194303
