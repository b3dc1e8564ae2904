class Main { };

class