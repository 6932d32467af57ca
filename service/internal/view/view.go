// Package view has who has a lock as programs print it, in JSON.
package view

import (
	"time"

	"calvundek.example/service/locks"
)

// Holder is who has a lock.
type Holder struct {
	Lock    string     `json:"lock"`
	Held    bool       `json:"held"` // somebody has it, or with asked may have it
	Asked   bool       `json:"asked,omitempty"`
	Client  *int       `json:"client,omitempty"`
	Session string     `json:"session,omitempty"` // the client as evict takes it
	User    string     `json:"user,omitempty"`
	Host    string     `json:"host,omitempty"`
	Pid     int        `json:"pid,omitempty"`
	Login   string     `json:"login,omitempty"`
	Note    string     `json:"note,omitempty"`
	Since   *time.Time `json:"since,omitempty"`
	Waiting int        `json:"waiting,omitempty"`
	Turn    uint64     `json:"turn,string,omitempty"` // a text: not all readers of JSON have whole numbers of 64 bits
}

// Of returns who has a lock.
func Of(lock string, h locks.Holder) Holder {
	v := Holder{Lock: lock, Held: !h.IsNobody(), Asked: h.Asked, User: h.User, Host: h.Host, Pid: h.Pid, Login: h.Login, Note: h.Note,
		Waiting: h.Waiting, Turn: h.Turn}
	if v.Held {
		since := h.Since.UTC().Truncate(time.Millisecond)
		v.Client, v.Session, v.Since = &h.Number, h.Session, &since
	}
	return v
}
