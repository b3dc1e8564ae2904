class B { };
class