nop


foo
bar @