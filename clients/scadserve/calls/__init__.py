"""What tools and the live server share: the words of a call, its sources read and solved, and what is written of a solid."""
