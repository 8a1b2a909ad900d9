// What Scala's own TrieMap and ParTrieMap take for the work that this project is measured by.
// Prints one line a measurement: NAME THREADS NANOSECONDS, the best of the rounds, for N pairs. The words are text or u64,
// for the keys, and then N and the rounds.
import scala.collection.concurrent.TrieMap
import scala.collection.parallel.ForkJoinTaskSupport
import scala.collection.parallel.mutable.ParTrieMap
import scala.concurrent.forkjoin.ForkJoinPool

object Bench {
  def key(i: Int): String = f"k$i%07d"

  def best(rounds: Int)(work: => Long): Long = {
    var least = Long.MaxValue
    for (_ <- 0 until rounds) least = math.min(least, work)
    least
  }

  def timed(work: => Any): Long = {
    val start = System.nanoTime
    work
    System.nanoTime - start
  }

  // how many calls a round of the loads of several threads makes, over all its threads
  val calls = 400000

  // the calls of one thread: keys by xorshift, the first of ten calls a put
  def mixed(map: TrieMap[String, Long], keys: Array[String], calls: Int, thread: Int): Long = {
    var state = thread + 1L
    var sum = 0L
    var call = 0
    while (call < calls) {
      state ^= state << 13
      state ^= state >>> 7
      state ^= state << 17
      val place = java.lang.Long.remainderUnsigned(state, keys.length.toLong).toInt
      if (call % 10 == 0) map.put(keys(place), place.toLong) else sum += map(keys(place))
      call += 1
    }
    sum
  }

  // the time of the work of so many threads, each of which is given its number
  def byThreads(threads: Int)(work: Int => Any): Long = timed {
    val workers = (0 until threads).map { t => new Thread(new Runnable { def run(): Unit = work(t) }) }
    workers.foreach(_.start())
    workers.foreach(_.join())
  }

  // the calls of one thread at one key
  def gets(map: TrieMap[String, Long], key: String, calls: Int): Long = {
    var sum = 0L
    var call = 0
    while (call < calls) { sum += map(key); call += 1 }
    sum
  }

  def puts(map: TrieMap[String, Long], key: String, value: Long, calls: Int): Unit = {
    var call = 0
    while (call < calls) { map.put(key, value); call += 1 }
  }

  def show(name: String, threads: Int, ns: Long) = println(s"$name $threads $ns")

  // a map whose keys are the numbers from 0, of 64 bits each
  def numbers(n: Int, rounds: Int): Unit = {
    def filled: TrieMap[Long, Long] = {
      val m = TrieMap.empty[Long, Long]
      var i = 0
      while (i < n) { m.put(i.toLong, i.toLong); i += 1 }
      m
    }
    val map = filled
    val half = n / 2
    show("u64_put", 1, best(rounds)(timed(filled)))
    show("u64_get", 1, best(rounds)(timed { var s = 0L; var i = 0; while (i < n) { s += map(i.toLong); i += 1 }; s }))
    show("u64_replace", 1, best(rounds)(timed { var i = 0; while (i < n) { map.put(i.toLong, i.toLong); i += 1 } }))
    val pool = new ForkJoinPool(1)
    val par: ParTrieMap[Long, Long] = map.par
    par.tasksupport = new ForkJoinTaskSupport(pool)
    show("u64_count", 1, best(rounds)(timed(par.count { case (_, v) => v < half })))
    pool.shutdown()
    show("u64_remove", 1, best(rounds) { val m = filled; timed { var i = 0; while (i < n) { m.remove(i.toLong); i += 1 } } })
  }

  def main(args: Array[String]): Unit = {
    val n = args(1).toInt
    val rounds = args(2).toInt
    if (args(0) == "u64") numbers(n, rounds) else texts(n, rounds)
  }

  // a map whose keys are the texts k0000000, k0000001 and so on
  def texts(n: Int, rounds: Int): Unit = {
    val keys = Array.tabulate(n)(key)
    def filled: TrieMap[String, Long] = {
      val m = TrieMap.empty[String, Long]
      var i = 0
      while (i < n) { m.put(keys(i), i.toLong); i += 1 }
      m
    }
    def held: Long = { System.gc(); System.gc(); Runtime.getRuntime.totalMemory - Runtime.getRuntime.freeMemory }
    val atRandom = new scala.util.Random(1).shuffle(keys.toSeq).toArray

    val before = held
    val map = filled
    show("bytes_a_pair", 1, (held - before) / n)
    show("put", 1, best(rounds)(timed(filled)))
    show("get_random", 1, best(rounds)(timed { var s = 0L; var i = 0; while (i < n) { s += map(atRandom(i)); i += 1 }; s }))
    show("get", 1, best(rounds)(timed { var s = 0L; var i = 0; while (i < n) { s += map(keys(i)); i += 1 }; s }))
    show("replace", 1, best(rounds)(timed { var i = 0; while (i < n) { map.put(keys(i), i.toLong); i += 1 } }))
    show("walk", 1, best(rounds)(timed { var s = 0L; val it = map.readOnlySnapshot().iterator; while (it.hasNext) s += it.next()._2; s }))
    // a snapshot, and the first write after it
    val writes = 1000
    show("snapshot_then_put", 1, best(rounds)(timed { var i = 0; while (i < writes) { map.snapshot(); map.put(keys(i), i.toLong); i += 1 } }) / writes)
    for (threads <- Seq(1, 2, 4)) {
      val pool = new ForkJoinPool(threads)
      val par: ParTrieMap[String, Long] = map.par
      par.tasksupport = new ForkJoinTaskSupport(pool)
      show("count", threads, best(rounds)(timed(par.count { case (_, v) => v % 2 == 0 })))
      show("fold_sum", threads, best(rounds)(timed(par.aggregate(0L)((s, e) => s + e._2, _ + _))))
      show("filter", threads, best(rounds)(timed(par.filter { case (_, v) => v % 2 == 0 })))
      show("exists_absent", threads, best(rounds)(timed(par.exists { case (_, v) => v < 0 })))
      show("map_values", threads, best(rounds)(timed(par.map { case (k, v) => (k, v + 1) })))
      pool.shutdown()
    }
    // nine gets for each put, over all threads
    for (threads <- Seq(1, 2, 4)) {
      val shared = filled
      show("mixed", threads, best(rounds)(byThreads(threads)(t => mixed(shared, keys, calls / threads, t))) / calls)
    }
    // one key, which all threads get, and then put
    val hot = filled
    val last = keys(n - 1)
    for (threads <- Seq(1, 4))
      show("one_key_reads", threads, best(rounds)(byThreads(threads)(_ => gets(hot, last, calls / threads))) / calls)
    for (threads <- Seq(1, 4))
      show("one_key_writes", threads, best(rounds)(byThreads(threads)(_ => puts(hot, last, n - 1L, calls / threads))) / calls)
    // the median of read-only snapshots with nobody writing
    show("view_alone", 1, Array.fill(1001)(timed(hot.readOnlySnapshot())).sorted.apply(500))
    // the median of read-only snapshots while four threads write
    @volatile var over = false
    val writers = (0 until 4).map { t =>
      new Thread(new Runnable { def run(): Unit = { var seed = t; while (!over) { mixed(hot, keys, 100, seed); seed += 4 } } })
    }
    writers.foreach(_.start())
    val times = Array.fill(1001)(timed(hot.readOnlySnapshot()))
    over = true
    writers.foreach(_.join())
    show("view_under_writes", 4, times.sorted.apply(500))
    show("remove", 1, best(rounds) { val m = filled; timed { var i = 0; while (i < n) { m.remove(keys(i)); i += 1 } } })
  }
}
