package locks

import (
	"context"

	"calvundek.example/service/internal/config"
)

// Look connects without a number, so it works while all are in use, and voters save nothing of it. The client may call Who, List, Watch
// and Close. It takes no locks: these calls fail with ErrLooks.
func Look(c Config) (*Client, error) {
	cluster, err := config.ReadCluster(c.Cluster)
	if err != nil {
		return nil, err
	}
	return look(cluster, c)
}

func look(cluster *config.Cluster, c Config) (*Client, error) {
	client, err := newLook(cluster, c)
	if err != nil {
		return nil, err
	}
	go client.run()
	return client, nil
}

// newLook returns a client that only looks, and whose loop did not begin yet.
func newLook(cluster *config.Cluster, c Config) (*Client, error) {
	client, err := newClient(cluster, c)
	if err != nil {
		return nil, err
	}
	client.looks = true
	if client.messages, err = client.carrier.Listen(client.boxes()); err != nil {
		client.close()
		return nil, client.explained(err)
	}
	return client, nil
}

// Campaign is Lock, with a note of its own in place of Config.Note: who has the lock is elected, and Watch and Who show the note.
// Observers need no number (Look).
func (c *Client) Campaign(ctx context.Context, election, note string) (*Held, error) {
	return c.LockFor(ctx, election, For{Note: note})
}
