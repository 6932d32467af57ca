// Package level has the levels of a cluster. A level says which rules all programs of a cluster keep: bounds, words, what is
// saved. Each voter saves the cluster's level, and an operator raises it once all programs know the next one. So programs
// are exchanged one by one, and may go back until then.
package level

// Oldest and Newest are the levels that this program knows. A program knows the level of the release before.
const Oldest = 1

// Floors is the level from which voters drop the rows of shards that nobody uses, and keep a floor of each.
const Floors = 2

// Greets is the level from which voters take the word "greet", and states have another format. It is for trials of an upgrade
// alone: only programs that are built with the tag "nextlevel" know it.
const Greets = 3
