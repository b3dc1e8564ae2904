class Main inherits IO {
  v : Object;
  o : Main;
  t(b : Bool) : Object { out_string(if b then "1" else "0" fi) };
  main() : Object {
    { t(isvoid 0); t(isvoid false); t(isvoid ""); t(isvoid new Int); t(isvoid new String); t(isvoid self); t(isvoid new Object); t(isvoid v); t(isvoid o); t(isvoid let x : Main in x); }
  };
};
