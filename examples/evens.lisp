; How many of the numbers from 1 to n are even.
(defun evens (n)
  (if (= n 0) 0 (+ (if (evenp n) 1 0) (evens (- n 1)))))
(evens 10)
