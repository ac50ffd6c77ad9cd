/* Asked for by sources that come from systems with files; nothing of it is used. */
