;; Clojure's refs, with a log: as main.c, `peer.clj WORK THREADS COUNT FOLDER`. Each step appends what it read
;; and wrote to a vector in a ref.
(def places-of-thread 64)
(def numbers (vec (repeatedly 256 #(ref 0))))
(def log (ref []))

(defn step [thread reads more]
  (dosync
    (let [values (mapv #(deref (numbers %)) reads)
          written (mapv (fn [place value n] [place (+ value n)]) reads values more)]
      (doseq [[place value] written] (ref-set (numbers place) value))
      (alter log conj [thread reads values written]))))

(defn sum-of [from end]
  (dosync (reduce + (mapv #(deref (numbers %)) (range from end)))))

(defn step-of [work thread i]
  (case work
    "together" [[0] [1]]
    "wide" [(mapv #(+ (* thread places-of-thread) (mod (+ (* i 7) (* % 37)) places-of-thread)) (range 16)) [1 1 1 1]]
    [[(* thread places-of-thread)] [1]]))

(defn act [work thread i]
  (if (= work "reader")
    (assert (zero? (sum-of 0 places-of-thread)))
    (let [[reads more] (step-of work thread i)] (step thread reads more))))

(defn run [work threads steps]
  (let [over (atom false)
        writer (when (= work "reader")
                 (future (loop [i 0]
                           (when-not @over
                             (let [here (mod (* i 7) places-of-thread)]
                               (step 1 [here (mod (+ here 37) places-of-thread)] [1 -1]))
                             (recur (inc i))))))
        start (System/nanoTime)
        workers (mapv (fn [thread] (future (dotimes [i steps] (act work thread i)))) (range threads))]
    (run! deref workers)
    (let [spent (- (System/nanoTime) start)]
      (reset! over true)
      (when writer @writer)
      spent)))

(let [[work threads steps] *command-line-args*
      threads (Integer/parseInt threads)
      steps (Integer/parseInt steps)]
  ;; The compiler of the virtual machine warms up.
  (run work threads (quot steps 4))
  (dosync (ref-set log []) (doseq [number numbers] (ref-set number 0)))
  (let [spent (run work threads steps)
        wanted (case work "reader" 0 "wide" (* 4 threads steps) (* threads steps))]
    (assert (= wanted (sum-of 0 256)) "the sum is wrong")
    (assert (or (= work "reader") (= (count @log) (* threads steps))) "a step isn't in the log")
    (println (format "%.1f" (/ (double spent) threads steps))))
  (shutdown-agents))
