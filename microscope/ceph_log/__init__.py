"""Logs of real monitors of Ceph: read, told, judged, diagnosed, and compared with the proved definitions. `microscope/ceph` is the command."""
