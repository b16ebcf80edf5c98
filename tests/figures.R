# Prints for each line of standard input the figures that tools/compare is to tell of its numbers, or, of two lists with
# a tab between, of the second less the first, pair by pair.
for (line in readLines(file("stdin"))) {
  lists <- lapply(strsplit(strsplit(line, "\t")[[1]], " "), as.numeric)
  first <- lists[[1]]
  numbers <- if (length(lists) == 2) lists[[2]] - first else first
  ends <- if (length(numbers) == 1) c(NA, NA)
    else if (length(lists) == 2) t.test(lists[[2]], first, paired = TRUE)$conf.int
    else t.test(numbers)$conf.int
  figures <- c(length(numbers), mean(numbers), sd(numbers), ends, min(numbers), max(numbers))
  cat(ifelse(is.na(figures), "", sapply(figures, format, digits = 15, scientific = FALSE)), "\n")
}
