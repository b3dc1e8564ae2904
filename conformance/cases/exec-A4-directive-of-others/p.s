.set
