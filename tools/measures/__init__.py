"""What house.py and contracts.py read: functions, definitions, names in docs/, and promises."""
