# Which word of a list was meant, where one is near to what was written.

function smaller(a, b) { return a < b ? a : b }

# How many letters make one word of another: put in, left out, replaced, or two neighbours exchanged.
function distance(a, b,    i, j, cost, d) {
    for (i = 0; i <= length(a); i++) d[i, 0] = i
    for (j = 0; j <= length(b); j++) d[0, j] = j
    for (i = 1; i <= length(a); i++)
        for (j = 1; j <= length(b); j++) {
            cost = substr(a, i, 1) != substr(b, j, 1)
            d[i, j] = smaller(d[i - 1, j - 1] + cost, smaller(d[i - 1, j], d[i, j - 1]) + 1)
            if (i > 1 && j > 1 && substr(a, i, 1) == substr(b, j - 1, 1) && substr(a, i - 1, 1) == substr(b, j, 1))
                d[i, j] = smaller(d[i, j], d[i - 2, j - 2] + 1)
        }
    return d[length(a), length(b)]
}

# The nearest, if it is so near that it may be meant; a word that was cut short counts as near to its whole.
function nearest(word, list,    part, count, i, far, most, closest) {
    if (word == "" || length(word) > 40) return ""
    most = length(word) < 2 ? 0 : length(word) < 4 ? 1 : 2
    count = split(list, part, " ")
    for (i = 1; i <= count; i++) {
        far = length(word) > 3 && index(part[i], word) == 1 ? 1 : distance(word, part[i])
        if (far <= most && (closest == "" || far < most)) { most = far; closest = part[i] }
    }
    return closest
}
