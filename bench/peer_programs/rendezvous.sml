(* The workloads of bench/workload on threads of Concurrent ML, for bench/peers. *)
structure Rendezvous = struct
  fun times 0 task = ()
    | times n task = (task n; times (n - 1) task)

  (* runs the functions as threads, and waits for them *)
  fun all tasks = let
    fun start task = let
      val ended = SyncVar.iVar ()
    in
      ignore (CML.spawn (fn () => (task (); SyncVar.iPut (ended, ()))));
      ended
    end
  in
    app SyncVar.iGet (map start tasks)
  end

  fun channels count : int CML.chan list = List.tabulate (count, fn _ => CML.channel ())

  fun pairs rounds = let
    fun pair channel =
      [fn () => times rounds (fn n => CML.send (channel, n)),
       fn () => times rounds (fn _ => ignore (CML.recv channel))]
  in
    all (List.concat (map pair (channels 32)))
  end

  fun ring rounds = let
    val made = Vector.fromList (channels 64)
    fun at n = Vector.sub (made, n)
    fun first () = times rounds (fn _ => (CML.send (at 0, 1); ignore (CML.recv (at 63))))
    fun other p () = times rounds (fn _ => CML.send (at p, CML.recv (at (p - 1))))
  in
    all (first :: List.tabulate (63, fn n => other (n + 1)))
  end

  fun pingpong rounds = let
    val ping : int CML.chan = CML.channel ()
    val pong = CML.channel ()
  in
    all [fn () => times rounds (fn _ => (CML.send (ping, 1); ignore (CML.recv pong))),
         fn () => times rounds (fn _ => CML.send (pong, CML.recv ping))]
  end

  (* 62 senders on four channels, and two receivers that choose among these *)
  fun fanin rounds = let
    val made = Vector.fromList (channels 4)
    val any = CML.choose (List.tabulate (4, fn n => CML.recvEvt (Vector.sub (made, n))))
    fun sender p () = times rounds (fn n => CML.send (Vector.sub (made, p mod 4), n))
    fun receiver () = times (31 * rounds) (fn _ => ignore (CML.sync any))
  in
    all (receiver :: receiver :: List.tabulate (62, sender))
  end

  (* starts 63 threads that do nothing, and waits for their ends *)
  fun starts rounds =
    times rounds (fn _ =>
      app (CML.sync o CML.joinEvt) (List.tabulate (63, fn _ => CML.spawn (fn () => ()))))

  fun work ["pairs", rounds] = pairs (valOf (Int.fromString rounds))
    | work ["pairs_split", rounds] = pairs (valOf (Int.fromString rounds))
    | work ["fanin", rounds] = fanin (valOf (Int.fromString rounds))
    | work ["ring", rounds] = ring (valOf (Int.fromString rounds))
    | work ["pingpong", rounds] = pingpong (valOf (Int.fromString rounds))
    | work ["starts", rounds] = starts (valOf (Int.fromString rounds))
    | work _ = ()

  fun main (_, arguments) =
    RunCML.doit (fn () => (work arguments; RunCML.shutdown OS.Process.success), NONE)
end
