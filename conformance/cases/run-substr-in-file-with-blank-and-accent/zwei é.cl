class Two inherits IO {
  cut(s : String) : Object {
    out_string(s.substr(2, 3))
  };
};
