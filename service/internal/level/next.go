//go:build nextlevel

package level

// Newest is the newest level that this program knows.
const Newest = Greets
