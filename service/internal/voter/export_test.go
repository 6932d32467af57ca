package voter

// FailSaves lets all saves of a daemon fail from now on.
func FailSaves(d *Daemon) { d.store.disk.Close() }
