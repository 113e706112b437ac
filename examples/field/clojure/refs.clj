;; Clojure's refs by lines: each thread of the bench is one here. When dosync runs its block again, the block throws, and A answers the pending
;; call: the next attempt is another dosync, which begins with its first call.
;;
;;     refs.clj deref|ensure
(import 'java.util.concurrent.LinkedBlockingQueue)
(def refs (vec (repeatedly 8 #(ref 0))))
(def calls (vec (repeatedly 8 #(LinkedBlockingQueue.))))
(def read-ref (if (= (first *command-line-args*) "ensure") ensure deref))

(defn answer [thread & words]
  (locking calls (println (apply str thread " " (interpose " " words))) (flush)))

(defn next-call [thread]
  (.take ^LinkedBlockingQueue (calls thread)))

(defn make-calls
  "Makes calls until one asks to commit; throws if one asks to abort."
  [thread first-call]
  (loop [[call register value] first-call]
    (case call
      "R" (answer thread "V" (read-ref (refs (parse-long register))))
      "W" (do (ref-set (refs (parse-long register)) (parse-long value)) (answer thread "K"))
      "T" nil
      "X" (throw (ex-info "asked" {})))
    (when (not= call "T") (recur (next-call thread)))))

(defn transaction [thread first-call]
  (let [has-run (volatile! false)]
    (try (dosync
           (when @has-run (throw (ex-info "again" {})))
           (vreset! has-run true)
           (make-calls thread first-call))
         "C"
         (catch clojure.lang.ExceptionInfo _ "A"))))

(dotimes [thread 8]
  (.start (Thread. #(while true (answer thread (transaction thread (next-call thread)))))))
(doseq [line (line-seq (java.io.BufferedReader. *in*))]
  (let [[thread & call] (.split ^String line " ")] (.add ^LinkedBlockingQueue (calls (parse-long thread)) call)))
(System/exit 0)
