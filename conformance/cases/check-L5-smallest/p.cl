(* open
