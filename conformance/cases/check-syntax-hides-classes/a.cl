class A inherits Z { };
