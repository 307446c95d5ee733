"""Messages of the Common Alerting Protocol to books of alerts."""

VERSION = "1.23.2"
