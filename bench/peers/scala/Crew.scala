// What the questions of shared_bench's crew take Scala's own ParTrieMap, on a pool of so many threads.
// Prints a line a question: NAME THREADS NANOSECONDS, the median of 15 rounds. Before them come ten more, and as many as
// half a second takes, in which the JVM compiles what it runs.
import scala.collection.concurrent.TrieMap
import scala.collection.parallel.ForkJoinTaskSupport
import scala.collection.parallel.mutable.ParTrieMap
import scala.concurrent.forkjoin.ForkJoinPool

object Crew {
  val warming = 10
  val warmingNanoseconds = 500L * 1000 * 1000
  val rounds = 15

  def timed(work: => Any): Long = {
    val start = System.nanoTime
    work
    System.nanoTime - start
  }

  def main(args: Array[String]): Unit = {
    val pairs = args(0).toInt
    val threads = args(1).toInt
    val map = TrieMap.empty[String, Long]
    for (i <- 0 until pairs) map.put(f"k$i%07d", i.toLong)
    val pool = new ForkJoinPool(threads)
    val par: ParTrieMap[String, Long] = map.par
    par.tasksupport = new ForkJoinTaskSupport(pool)
    val half = pairs / 2

    def show(name: String)(work: => Any): Unit = {
      var warmed = 0
      val start = System.nanoTime
      while (warmed < warming || System.nanoTime - start < warmingNanoseconds) { work; warmed += 1 }
      val times = Array.fill(rounds)(timed(work)).sorted
      println(s"crew_$name $threads ${times(rounds / 2)}")
    }

    show("count")(par.count { case (_, v) => v < half })
    show("exists_absent")(par.exists { case (_, v) => v < 0 })
    show("fold_sum")(par.aggregate(0L)((sum, pair) => sum + pair._2, _ + _))
    show("filter")(par.filter { case (_, v) => v < half })
    show("map_values")(par.map { case (k, _) => (k, 1L) })
    // ParTrieMap.map to keys that several pairs have in common fails when parts are joined, so one thread makes the map.
    show("map_pairs") {
      val made = TrieMap.empty[String, Long]
      map.foreach { case (k, v) => made.put(k.dropRight(1), v) }
      made
    }
    pool.shutdown()
  }
}
