"""What the tools beside the program share: its lines and answers, texts of metrics, charts, and a plain map to compare with."""
