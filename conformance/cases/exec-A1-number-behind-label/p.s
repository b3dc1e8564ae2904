.word : 5
