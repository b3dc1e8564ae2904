class A { };
class A { };
class B inherits Z { };
