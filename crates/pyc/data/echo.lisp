(write-char (read-char nil nil))
