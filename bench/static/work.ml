(* A match over many constructors, exceptions, closures, big strings and hash tables, with much allocation. *)
exception Stop of int

type step = Add of int | Mul of int | Neg | Shift of int | Drop | Xor of int | Swap | Keep

let step_of letter =
  match Char.code letter mod 9 with
  | 0 -> Add 3 | 1 -> Mul 5 | 2 -> Neg | 3 -> Shift 2 | 4 -> Drop | 5 -> Xor 0x55
  | 6 -> Swap | 7 -> Keep | _ -> raise (Stop (Char.code letter))

let apply (x, y) = function
  | Add n -> (x + n, y) | Mul n -> (x * n land 0xFFFFFF, y) | Neg -> (lnot x land 0xFFFF, y)
  | Shift n -> (x lsl n land 0xFFFFFF, y) | Drop -> (0, x) | Xor n -> (x lxor n, y) | Swap -> (y, x) | Keep -> (x, y + 1)

let () =
  let seen = Hashtbl.create 16 and sum = ref 0 in
  (try
     while true do
       let line = input_line stdin in
       let steps = List.init (String.length line) (String.get line) in
       let (x, y) =
         List.fold_left (fun pair letter -> try apply pair (step_of letter) with Stop n -> (n, fst pair)) (1, 2) steps in
       Hashtbl.replace seen line (x, y);
       sum := !sum + List.length (List.init 2000 (fun n -> (n, string_of_int n)))
     done
   with End_of_file -> ());
  let lines = List.sort compare (Hashtbl.fold (fun line pair all -> (line, pair) :: all) seen []) in
  List.iter (fun (line, (x, y)) -> Printf.printf "%-30s %d %d %.3f\n" line x y (float x /. 7.)) lines;
  exit (!sum mod 256)
