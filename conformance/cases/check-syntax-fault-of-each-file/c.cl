

class { }; ;